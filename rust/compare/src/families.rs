//! The cases, by family: first those that go through all of something, then
//! as many by chance as asked for.

use crate::boards::{free_board, random_board, tight_board, SPOILS};
use crate::case::{compared, Call, Case, Tally};
use crate::chance::{
    any_board, any_call, any_cores, any_cost, any_record, board_calls, old_words, put,
};
use crate::costs::{self, ALLOWED, COSTS, REFUSED};
use crate::draft::Draft;
use crate::files::{self, any_building};
use crate::fits::{guarded_call, tight_fit};
use crate::foreign::PlanWriting;
use crate::graph::Graph;
use crate::graphing::{self, any_graph};
use crate::joins::{self, sprinkle};
use crate::judging::{self, any_judging};
use crate::lists::{self, any_writing};
use crate::loops::drawings;
use crate::mended;
use crate::mending::{self, any_mending};
use crate::random::Random;
use crate::recording::{self, any_plan_writing, any_reading};
use crate::records::{
    bad_forms, half_joins, misspelt, plain_task, random_bytes, samples, short_lists, spoilt,
    with_form, WORKED,
};
use crate::tasks::{random_task, task_of};
use crate::to_end::tight_to_end;
use crate::writing::Writing;
use crate::written;
use ffi::task::{chain, encoded, Task};
use reference::{Row, PLAN_WORDS};
use std::io::{self, Write};

/// The case that differed and the family it came from.
pub struct Found {
    pub family: &'static str,
    pub case: Case,
}

pub struct Run {
    random: Random,
    family: &'static str,
    wanted: u64,
    pub compared: u64,
    pub tally: Tally,
    /// Records that were read, and written and mended again.
    pub again: u64,
}

type Outcome = Result<(), Found>;

/// Boards whose verdict turns at a number of cores, and the call to ask for it.
type Turn = (fn(&mut Random, u64) -> Vec<Row>, fn(u64) -> Call);

const VERDICT: Turn = (tight_board, Call::Ask);
const VERDICT_TO_END: Turn = (tight_to_end, Call::AskToEnd);

impl Run {
    /// A run that goes on by chance until so many cases are compared.
    pub fn of(wanted: u64, seed: u64) -> Run {
        Run {
            random: Random::seeded(seed),
            family: "",
            wanted,
            compared: 0,
            tally: Tally::default(),
            again: 0,
        }
    }

    pub fn all(&mut self) -> Outcome {
        self.all_of_planning()?;
        self.all_of_writing()?;
        self.all_of_files()?;
        self.all_of_plans()?;
        self.family("by chance", Run::by_chance)
    }

    /// Records, and boards with their tasks on them.
    fn all_of_planning(&mut self) -> Outcome {
        self.family("worked tables", Run::worked_tables)?;
        self.family("cuts", Run::cuts)?;
        self.family("bit flips", Run::bit_flips)?;
        self.family("forms", Run::forms)?;
        self.family("limits", Run::limits)?;
        self.family("parent counts", Run::parent_counts)?;
        self.family("loops", Run::loops)?;
        self.family("editions", Run::editions)?;
        self.family("joins", Run::joins)?;
        self.family("costs", Run::costs)?;
        self.family("word buffers", Run::word_buffers)?;
        self.family("board lengths", Run::board_lengths)?;
        self.family("board rows", Run::board_rows)?;
        self.family("verdicts", Run::verdicts)?;
        self.family("verdicts to the end", Run::verdicts_to_end)?;
        self.family("tight fits", Run::tight_fits)?;
        self.family("guarded runs", Run::guarded_runs)?;
        self.family("sequences", Run::sequences)
    }

    /// Lists, records to be mended, and texts of graphs.
    fn all_of_writing(&mut self) -> Outcome {
        self.family("limits to write", Run::limits_to_write)?;
        self.family("two faults to write", Run::two_faults_to_write)?;
        self.family("lengths to write", Run::lengths_to_write)?;
        self.family("counts to write", Run::counts_to_write)?;
        self.family("tables to write", Run::tables_to_write)?;
        self.family("forms to mend", Run::forms_to_mend)?;
        self.family("lists to mend", Run::lists_to_mend)?;
        self.family("counts to mend", Run::counts_to_mend)?;
        self.family("lengths to mend", Run::lengths_to_mend)?;
        self.family("records to mend", Run::records_to_mend)?;
        self.family("cuts of texts", Run::cuts_of_texts)?;
        self.family("bytes of texts", Run::bytes_of_texts)?;
        self.family("words of texts", Run::words_of_texts)?;
        self.family("numbers in texts", Run::numbers_in_texts)?;
        self.family("faults in texts", Run::faults_in_texts)?;
        self.family("lengths for texts", Run::lengths_for_texts)?;
        self.family("counts in texts", Run::counts_in_texts)?;
        self.family("texts", Run::texts)
    }

    /// Files to be walked through.
    fn all_of_files(&mut self) -> Outcome {
        self.family("cuts of files", Run::cuts_of_files)?;
        self.family("bytes of files", Run::bytes_of_files)?;
        self.family("lengths in files", Run::lengths_in_files)?;
        self.family("records in files", Run::records_in_files)?;
        self.family("largest files", Run::largest_files)?;
        self.family("files", Run::files)
    }

    /// Plan records, plans to be written, and plans to be judged.
    fn all_of_plans(&mut self) -> Outcome {
        self.family("cuts of plans", Run::cuts_of_plans)?;
        self.family("bytes of plans", Run::bytes_of_plans)?;
        self.family("forms in plans", Run::forms_in_plans)?;
        self.family("numbers in plans", Run::numbers_in_plans)?;
        self.family("counts in plans", Run::counts_in_plans)?;
        self.family("plan records", Run::plan_records)?;
        self.family("limits of plans to write", Run::limits_of_plans)?;
        self.family("counts of plans to write", Run::counts_of_plans)?;
        self.family("lengths of plans to write", Run::lengths_of_plans)?;
        self.family("plans to write", Run::plans_to_write)?;
        self.family("own plans", Run::own_plans)?;
        self.family("cut plans", Run::cut_plans)?;
        self.family("changed numbers", Run::changed_numbers)?;
        self.family("two changes", Run::two_changes)?;
        self.family("other shares", Run::other_shares)?;
        self.family("large sums", Run::large_sums)?;
        self.family("other tasks", Run::other_tasks)?;
        self.family("refusals of the judge", Run::refusals_of_the_judge)?;
        self.family("words for plans", Run::words_for_plans)?;
        self.family("plans to judge", Run::plans_to_judge)
    }

    fn family(&mut self, name: &'static str, cases: fn(&mut Run) -> Outcome) -> Outcome {
        self.family = name;
        let before = self.compared;
        // Named beforehand, in case the library doesn't come back.
        print!("  {name}:");
        let _ = io::stdout().flush();
        cases(self)?;
        println!(" {}", self.compared - before);
        Ok(())
    }

    fn compare(&mut self, case: Case) -> Outcome {
        self.compared += case.calls.len() as u64;
        let Ok(tally) = compared(&case) else {
            return Err(self.found(case));
        };
        self.tally.add(&tally);
        let mut records = case.calls.iter().filter_map(Call::record);
        records.try_for_each(|record| self.give_again(record))
    }

    fn found(&self, case: Case) -> Found {
        Found {
            family: self.family,
            case,
        }
    }

    /// Cases of their own only where another record comes of them.
    fn give_again(&mut self, record: &[u8]) -> Outcome {
        let Some(writing) = written::again(record) else {
            return Ok(());
        };
        if !written::gives(&writing, record) {
            return Err(self.found(Case::alone(Call::Write(writing))));
        }
        if !mended::gives(record) {
            return Err(self.found(Case::alone(Call::Mend {
                given: record.to_vec(),
                lent: record.len() as u64,
            })));
        }
        self.again += 1;
        Ok(())
    }

    fn on_board(&mut self, board: Vec<Row>, calls: Vec<Call>) -> Outcome {
        let length = PLAN_WORDS + self.random.index(3);
        let words = old_words(&mut self.random, length);
        self.compare(Case {
            words,
            board,
            calls,
        })
    }

    fn plan_at(&mut self, record: Vec<u8>, cost: u64) -> Outcome {
        self.on_board(vec![], vec![Call::Plan(record, cost)])
    }

    /// At a cost by chance.
    fn plan(&mut self, record: Vec<u8>) -> Outcome {
        let cost = any_cost(&mut self.random);
        self.plan_at(record, cost)
    }

    /// Each at a cost by chance.
    fn plan_and_put(&mut self, record: Vec<u8>) -> Outcome {
        let random = &mut self.random;
        let (plan_cost, cost) = (any_cost(random), any_cost(random));
        let cores = any_cores(random);
        let put = put(random, &record, cores, cost);
        let calls = vec![Call::Plan(record, plan_cost), put];
        self.on_board(free_board(), calls)
    }

    fn worked_tables(&mut self) -> Outcome {
        for record in WORKED {
            for cost in COSTS {
                let mut calls = Call::both(record, cost).to_vec();
                calls.extend((0..=66).flat_map(Call::asks));
                calls.extend([0, 3, 7, 9, 65_535, 65_536].map(Call::Withdraw));
                self.on_board(free_board(), calls)?;
            }
            self.every_count(record)?;
        }
        Ok(())
    }

    /// The task comes and goes, admitted for each number of cores.
    fn every_count(&mut self, record: &[u8]) -> Outcome {
        let id = Draft::read(record).map_or(0, |draft| draft.id.value);
        let visit = |cores| [Call::admit(record, cores, 0), Call::Withdraw(id)];
        let calls = (0..=66).chain([u64::MAX]).flat_map(visit).collect();
        self.on_board(free_board(), calls)
    }

    fn cuts(&mut self) -> Outcome {
        for record in samples(&mut self.random) {
            for length in 0..=record.len() {
                self.plan_and_put(record[..length].to_vec())?;
            }
        }
        Ok(())
    }

    fn bit_flips(&mut self) -> Outcome {
        for record in samples(&mut self.random) {
            for bit in 0..8 * record.len() {
                let mut flipped = record.clone();
                flipped[bit / 8] ^= 1 << (bit % 8);
                self.plan(flipped)?;
            }
        }
        Ok(())
    }

    fn forms(&mut self) -> Outcome {
        for numbers in short_lists(&mut self.random) {
            for at in 0..numbers.len() {
                for form in bad_forms(numbers[at]) {
                    let record = with_form(&numbers, at, &form);
                    let end = encoded(&numbers[..at]).len() + form.len();
                    self.plan(record[..end].to_vec())?;
                    self.plan(record)?;
                }
            }
        }
        Ok(())
    }

    /// Each field takes values around every limit there is, its own and the
    /// other fields'.
    fn limits(&mut self) -> Outcome {
        let limits = [0, 2, 64, 65_535, 16_777_215];
        let group_limits = [1 << 7, 1 << 14, 1 << 21, 1 << 28];
        for numbers in short_lists(&mut self.random) {
            for at in 0..numbers.len() {
                let fields = [numbers[at], numbers[at.max(1) - 1], numbers[Task::COUNT_AT]];
                for limit in limits.iter().chain(&group_limits).chain(&fields) {
                    for value in limit.saturating_sub(1)..=limit + 1 {
                        let mut changed = numbers.clone();
                        changed[at] = value;
                        self.plan(encoded(&changed))?;
                    }
                }
            }
            for bytes in [vec![0], vec![0x80], vec![0xFF; 5], vec![0; 9_000]] {
                self.plan([encoded(&numbers), bytes].concat())?;
            }
        }
        Ok(())
    }

    /// One node of n takes none to all n as parents, and one more than that.
    fn parent_counts(&mut self) -> Outcome {
        for count in 1..=64 {
            for written in [0, 1, count - 1, count, count + 1] {
                for cost in COSTS {
                    let mut task = task_of(&mut self.random, count, cost);
                    let node = self.random.index(count as usize);
                    task.nodes[node].parents = (0..written).collect();
                    self.plan_at(task.record(), cost)?;
                    task.nodes[node].parents.reverse();
                    self.plan_at(task.record(), cost)?;
                }
            }
        }
        Ok(())
    }

    fn loops(&mut self) -> Outcome {
        for parents in drawings(&mut self.random) {
            let mut task = plain_task(parents);
            if self.random.one_in(2) {
                sprinkle(&mut self.random, &mut task);
            }
            self.plan_and_put(task.record())?;
        }
        Ok(())
    }

    /// Every edition and bad form of one, before steps alone, steps and joins,
    /// and joins alone.
    fn editions(&mut self) -> Outcome {
        let tasks = [
            plain_task(chain(3)),
            half_joins(chain(3)),
            half_joins(chain(1)),
        ];
        for numbers in tasks.map(|task| task.numbers()) {
            let mut records = Vec::new();
            let large = [1 << 14, 1 << 16, 1 << 21, 1 << 28].map(|more| more + 2);
            for edition in (0..=300).chain(large) {
                let mut changed = numbers.clone();
                changed[0] = edition;
                records.push(encoded(&changed));
            }
            for form in [0, 1, 2, 3, 127].into_iter().flat_map(bad_forms) {
                records.push(with_form(&numbers, 0, &form));
            }
            for record in records {
                let calls = COSTS.map(|cost| Call::Plan(record.clone(), cost));
                self.on_board(vec![], calls.into())?;
            }
        }
        Ok(())
    }

    fn joins(&mut self) -> Outcome {
        for cost in ALLOWED {
            for task in joins::tasks(&mut self.random, cost) {
                let random = &mut self.random;
                let record = task.record();
                let followed = [&record[..], &[0]].concat();
                let refused = random.pick(&REFUSED);
                let cores = any_cores(random);
                let mut calls = vec![
                    Call::Plan(record.clone(), cost),
                    Call::Plan(followed, cost),
                    put(random, &record, cores, refused),
                    put(random, &record, cores, cost),
                ];
                calls.extend(Call::asks(random.between(1, 64)));
                self.on_board(free_board(), calls)?;
            }
        }
        Ok(())
    }

    fn costs(&mut self) -> Outcome {
        for case in costs::beside_refusals(&mut self.random) {
            self.compare(case)?;
        }
        for calls in costs::lists(&mut self.random) {
            self.on_board(free_board(), calls)?;
        }
        Ok(())
    }

    fn word_buffers(&mut self) -> Outcome {
        for length in [0, 1, 3, 200, 385, 386, 387, 388, 389, 500, 2_000] {
            for cost in COSTS.repeat(60) {
                let record = any_record(&mut self.random, cost);
                let board = any_board(&mut self.random);
                let words = old_words(&mut self.random, length);
                let mut calls = Call::both(&record, cost).to_vec();
                calls.push(Call::admit(&record, any_cores(&mut self.random), cost));
                self.random.shuffle(&mut calls);
                self.compare(Case {
                    words,
                    board,
                    calls,
                })?;
            }
        }
        Ok(())
    }

    fn board_lengths(&mut self) -> Outcome {
        for length in (0..=20).chain([32, 64, 300]) {
            for cost in COSTS.repeat(8) {
                let mut board = random_board(&mut self.random);
                board.resize(length, Row::default());
                let calls = board_calls(&mut self.random, cost);
                self.on_board(board, calls)?;
            }
        }
        Ok(())
    }

    fn board_rows(&mut self) -> Outcome {
        for spoil in SPOILS {
            for at in 0..16 {
                for cost in COSTS {
                    let mut board = random_board(&mut self.random);
                    spoil(&mut board[at]);
                    let calls = board_calls(&mut self.random, cost);
                    self.on_board(board, calls)?;
                }
            }
        }
        Ok(())
    }

    fn verdicts(&mut self) -> Outcome {
        self.turns(VERDICT)
    }

    fn verdicts_to_end(&mut self) -> Outcome {
        self.turns(VERDICT_TO_END)
    }

    fn turns(&mut self, turn: Turn) -> Outcome {
        for cores in 1..=64 {
            for cost in COSTS.repeat(6) {
                self.turn(turn, cores, cost)?;
            }
        }
        Ok(())
    }

    /// Before a task is put on the board, and after.
    fn turn(&mut self, (tight, ask): Turn, cores: u64, cost: u64) -> Outcome {
        let board = tight(&mut self.random, cores);
        let asks = [cores - 1, cores, cores + 1].map(ask);
        let record = any_record(&mut self.random, cost);
        let puts = [Call::admit(&record, cores, cost), Call::Note(record, cost)];
        let calls = [&asks[..], &puts, &asks].concat();
        self.on_board(board, calls)
    }

    fn tight_fits(&mut self) -> Outcome {
        for cores in 1..=64 {
            for cost in COSTS.into_iter().chain(2..=16) {
                self.tight_fit(cores, cost)?;
            }
        }
        Ok(())
    }

    /// For one core less, for so many, and for one more.
    fn tight_fit(&mut self, cores: u64, cost: u64) -> Outcome {
        let (board, task) = tight_fit(&mut self.random, cores, cost);
        let record = task.record();
        let admit = |cores| [Call::admit(&record, cores, cost), Call::Ask(cores)];
        let mut calls = vec![Call::Ask(cores)];
        calls.extend([cores - 1, cores, cores + 1].into_iter().flat_map(admit));
        self.on_board(board, calls)
    }

    fn guarded_runs(&mut self) -> Outcome {
        for cores in 1..=64 {
            self.guarded_run(cores, 200)?;
        }
        Ok(())
    }

    fn guarded_run(&mut self, cores: u64, length: usize) -> Outcome {
        let random = &mut self.random;
        let calls = (0..length).map(|_| guarded_call(random, cores)).collect();
        self.on_board(free_board(), calls)
    }

    fn sequences(&mut self) -> Outcome {
        for _ in 0..200 {
            self.sequence(200)?;
        }
        Ok(())
    }

    fn sequence(&mut self, length: usize) -> Outcome {
        let random = &mut self.random;
        let cores = random.between(1, 64);
        let board = match random.one_in(2) {
            true => random_board(random),
            false => free_board(),
        };
        let calls = (0..length).map(|_| any_call(random, cores)).collect();
        self.on_board(board, calls)
    }

    fn alone(&mut self, call: Call) -> Outcome {
        self.compare(Case::alone(call))
    }

    fn write_each(&mut self, writings: Vec<Writing>) -> Outcome {
        let mut calls = writings.into_iter().map(Call::Write);
        calls.try_for_each(|call| self.alone(call))
    }

    fn limits_to_write(&mut self) -> Outcome {
        let writings = lists::limits(&mut self.random);
        self.write_each(writings)
    }

    fn two_faults_to_write(&mut self) -> Outcome {
        let writings = lists::two_faults(&mut self.random);
        self.write_each(writings)
    }

    fn lengths_to_write(&mut self) -> Outcome {
        let writings = lists::lengths(&mut self.random);
        self.write_each(writings)
    }

    fn counts_to_write(&mut self) -> Outcome {
        self.write_each(lists::counts())
    }

    fn tables_to_write(&mut self) -> Outcome {
        for _ in 0..10_000 {
            let writing = any_writing(&mut self.random);
            self.alone(Call::Write(writing))?;
        }
        Ok(())
    }

    fn each_alone(&mut self, calls: fn(&mut Random) -> Vec<Call>) -> Outcome {
        let mut calls = calls(&mut self.random).into_iter();
        calls.try_for_each(|call| self.alone(call))
    }

    fn forms_to_mend(&mut self) -> Outcome {
        self.each_alone(mending::forms)
    }

    fn lists_to_mend(&mut self) -> Outcome {
        self.each_alone(mending::lists)
    }

    fn counts_to_mend(&mut self) -> Outcome {
        self.each_alone(mending::counts)
    }

    fn lengths_to_mend(&mut self) -> Outcome {
        self.each_alone(mending::lengths)
    }

    fn records_to_mend(&mut self) -> Outcome {
        for _ in 0..10_000 {
            let mending = any_mending(&mut self.random);
            self.alone(mending)?;
        }
        Ok(())
    }

    fn read_each(&mut self, graphs: fn(&mut Random) -> Vec<Graph>) -> Outcome {
        let mut graphs = graphs(&mut self.random).into_iter();
        graphs.try_for_each(|graph| self.alone(Call::ReadGraph(graph)))
    }

    fn cuts_of_texts(&mut self) -> Outcome {
        self.read_each(graphing::cuts)
    }

    fn bytes_of_texts(&mut self) -> Outcome {
        self.read_each(graphing::bytes)
    }

    fn words_of_texts(&mut self) -> Outcome {
        self.read_each(graphing::words)
    }

    fn numbers_in_texts(&mut self) -> Outcome {
        self.read_each(graphing::numbers)
    }

    fn faults_in_texts(&mut self) -> Outcome {
        self.read_each(graphing::faults)
    }

    fn lengths_for_texts(&mut self) -> Outcome {
        self.read_each(graphing::lengths)
    }

    fn counts_in_texts(&mut self) -> Outcome {
        self.read_each(graphing::counts)
    }

    fn texts(&mut self) -> Outcome {
        for _ in 0..10_000 {
            let graph = any_graph(&mut self.random);
            self.alone(Call::ReadGraph(graph))?;
        }
        Ok(())
    }

    fn cuts_of_files(&mut self) -> Outcome {
        self.each_alone(files::cuts)
    }

    fn bytes_of_files(&mut self) -> Outcome {
        self.each_alone(files::bytes)
    }

    fn lengths_in_files(&mut self) -> Outcome {
        self.each_alone(files::lengths)
    }

    fn records_in_files(&mut self) -> Outcome {
        self.each_alone(files::records)
    }

    fn largest_files(&mut self) -> Outcome {
        self.each_alone(files::largest)
    }

    fn files(&mut self) -> Outcome {
        for _ in 0..10_000 {
            let building = any_building(&mut self.random);
            self.alone(building)?;
        }
        Ok(())
    }

    /// With enough words and no board.
    fn on_words(&mut self, call: Call) -> Outcome {
        self.on_board(vec![], vec![call])
    }

    fn each_on_words(&mut self, calls: fn(&mut Random) -> Vec<Call>) -> Outcome {
        let mut calls = calls(&mut self.random).into_iter();
        calls.try_for_each(|call| self.on_words(call))
    }

    fn cuts_of_plans(&mut self) -> Outcome {
        self.each_on_words(recording::cuts)
    }

    fn bytes_of_plans(&mut self) -> Outcome {
        self.each_on_words(recording::bytes)
    }

    fn forms_in_plans(&mut self) -> Outcome {
        self.each_on_words(recording::forms)
    }

    fn numbers_in_plans(&mut self) -> Outcome {
        self.each_on_words(recording::numbers)
    }

    fn counts_in_plans(&mut self) -> Outcome {
        self.each_on_words(recording::counts)
    }

    fn plan_records(&mut self) -> Outcome {
        for _ in 0..5_000 {
            let reading = any_reading(&mut self.random);
            self.on_words(reading)?;
        }
        Ok(())
    }

    fn write_each_plan(&mut self, writings: fn(&mut Random) -> Vec<PlanWriting>) -> Outcome {
        let mut writings = writings(&mut self.random).into_iter();
        writings.try_for_each(|writing| self.alone(Call::WritePlan(writing)))
    }

    fn limits_of_plans(&mut self) -> Outcome {
        self.write_each_plan(recording::limits_to_write)
    }

    fn counts_of_plans(&mut self) -> Outcome {
        self.write_each_plan(recording::counts_to_write)
    }

    fn lengths_of_plans(&mut self) -> Outcome {
        self.write_each_plan(recording::lengths_to_write)
    }

    fn plans_to_write(&mut self) -> Outcome {
        for _ in 0..5_000 {
            let writing = any_plan_writing(&mut self.random);
            self.alone(Call::WritePlan(writing))?;
        }
        Ok(())
    }

    fn own_plans(&mut self) -> Outcome {
        self.each_on_words(judging::own_plans)
    }

    fn cut_plans(&mut self) -> Outcome {
        self.each_on_words(judging::cuts)
    }

    fn changed_numbers(&mut self) -> Outcome {
        self.each_on_words(judging::changed_numbers)
    }

    fn two_changes(&mut self) -> Outcome {
        self.each_on_words(judging::two_changes)
    }

    fn other_shares(&mut self) -> Outcome {
        self.each_on_words(judging::other_shares)
    }

    fn large_sums(&mut self) -> Outcome {
        self.each_on_words(judging::large_sums)
    }

    fn other_tasks(&mut self) -> Outcome {
        self.each_on_words(judging::other_tasks)
    }

    fn refusals_of_the_judge(&mut self) -> Outcome {
        let mut cases = judging::refusals(&mut self.random).into_iter();
        cases.try_for_each(|case| self.compare(case))
    }

    fn words_for_plans(&mut self) -> Outcome {
        let mut cases = judging::word_buffers(&mut self.random).into_iter();
        cases.try_for_each(|case| self.compare(case))
    }

    fn plans_to_judge(&mut self) -> Outcome {
        for _ in 0..10_000 {
            let judging = any_judging(&mut self.random);
            self.on_words(judging)?;
        }
        Ok(())
    }

    fn by_chance(&mut self) -> Outcome {
        while self.compared < self.wanted {
            self.one_by_chance()?;
        }
        Ok(())
    }

    fn one_by_chance(&mut self) -> Outcome {
        let random = &mut self.random;
        let cost = any_cost(random);
        let cores = random.between(1, 64);
        match random.below(80) {
            0 => self.sequence(100),
            1..=8 => {
                let board = any_board(random);
                let calls = board_calls(random, cost);
                self.on_board(board, calls)
            }
            9 => {
                let turn = random.pick(&[VERDICT, VERDICT_TO_END]);
                self.turn(turn, cores, cost)
            }
            10 => self.guarded_run(cores, 30),
            11..=12 => self.tight_fit(cores, cost),
            13..=16 => {
                let bytes = random_bytes(random);
                self.plan_at(bytes, cost)
            }
            17..=24 => {
                let record = random_task(random, cost).record();
                let record = spoilt(random, record);
                self.plan_at(record, cost)
            }
            25..=32 => {
                let numbers = random_task(random, cost).numbers();
                let record = misspelt(random, &numbers);
                self.plan_at(record, cost)
            }
            33..=60 => self.one_alone(),
            61..=72 => self.one_plan(),
            _ => {
                let record = random_task(random, cost).record();
                self.plan_at(record, cost)
            }
        }
    }

    /// A call that needs neither words nor a board.
    fn one_alone(&mut self) -> Outcome {
        let random = &mut self.random;
        let call = match random.below(7) {
            0 | 1 => Call::Write(any_writing(random)),
            2 | 3 => any_mending(random),
            4 | 5 => Call::ReadGraph(any_graph(random)),
            _ => any_building(random),
        };
        self.alone(call)
    }

    /// A plan that is read, written or judged.
    fn one_plan(&mut self) -> Outcome {
        let random = &mut self.random;
        let call = match random.below(4) {
            0 => any_reading(random),
            1 => Call::WritePlan(any_plan_writing(random)),
            _ => any_judging(random),
        };
        self.on_words(call)
    }
}
