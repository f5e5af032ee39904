//! The table of times.

use crate::clock::{long, pair};
use crate::setup::{
    board, different, half_joins, lists, longest_plan, own_plan, record, scattered, Aligned,
    Building, CHAIN, CORES, COST, DIFFERENT, LONGEST, LONGEST_PLAN, LOOSE, RING, SHAPES,
};
use ffi::task::Task;
use reference::{Answer, Row, PLAN_WORDS};
use std::hint::black_box;

pub fn print() {
    let copy = copy_time();
    println!("nanoseconds for one call, best of the batches' medians");
    println!("words buffer: 387 words, zeroed before the first call, then reused");
    println!("bytes to write into: {LONGEST}, for a plan {LONGEST_PLAN}, likewise");
    println!("words, boards, lists and bytes start on a cache line");
    println!("board: copied afresh before each note, admit and withdraw; the {copy:.1} for");
    println!("the copy are already taken off");
    println!("the cost is 0 where none is named");
    println!(
        "{:NAMES$}{:>9}{:>11}{:>7}",
        "", "library", "reference", "ratio"
    );
    plans();
    different_plans();
    dear_plans();
    let noted = notes(copy);
    let admitted = admissions(copy);
    withdrawal(copy);
    asking();
    let (written, read) = writing();
    let mended = mending();
    let graph = graph_reading();
    plan_records();
    let judged = judging();
    guard(&noted, &admitted);
    let record = "the time to write the longest record over the time to read it";
    over(record, written, read);
    let mend = "the time to mend the longest record over the times to read and to write it";
    over(mend, mended, (read.0 + written.0, read.1 + written.1));
    let text = "the time to read the longest record's text over the time to write the record";
    over(text, graph, written);
    judge(&judged);
    buildings();
}

/// The names' column.
const NAMES: usize = 54;

fn line(name: &str, (library, reference): (f64, f64)) {
    let ratio = library / reference;
    println!("{name:NAMES$}{library:9.1}{reference:11.1}{ratio:7.2}");
}

fn plans() {
    for shape in SHAPES {
        for count in [8, 16, 32, 64] {
            let name = format!("plan {} of {count}", shape.0);
            line(&name, plan_times(&[record(shape, count, 1)], 0));
        }
    }
    for count in [8, 16, 32, 64] {
        let name = format!("plan chain of {count}, half of it joins");
        line(&name, plan_times(&[half_joins(count, 1)], 0));
    }
    let longest = Task::longest().record();
    let name = format!("read {} bytes, then refusal 10", longest.len());
    line(&name, plan_times(&[longest], 0));
    let name = format!("read {} of 64, then refusal 10", RING.0);
    line(&name, plan_times(&[record(RING, 64, 1)], 0));
}

fn different_plans() {
    for shape in SHAPES {
        let name = format!("plan {DIFFERENT} different, {} of 64", shape.0);
        line(&name, plan_times(&different(shape), 0));
    }
    let name = format!("plan {DIFFERENT} different, scattered 64");
    let records: Vec<Vec<u8>> = scattered(64).take(DIFFERENT).collect();
    line(&name, plan_times(&records, 0));
}

fn dear_plans() {
    for shape in [CHAIN, LOOSE] {
        let name = format!("plan {} of 64, cost {COST}", shape.0);
        line(&name, plan_times(&[record(shape, 64, 1)], COST));
    }
    let name = format!("plan chain of 64, half joins, cost {COST}");
    line(&name, plan_times(&[half_joins(64, 1)], COST));
}

/// The records take turns.
fn plan_times(records: &[Vec<u8>], cost: u64) -> (f64, f64) {
    let mut words = [Aligned([0; PLAN_WORDS]); 2];
    let [Aligned(library), Aligned(reference)] = &mut words;
    let (mut ours, mut theirs) = (turns(records), turns(records));
    pair(
        || {
            let record = black_box(ours());
            black_box(ffi::plan(record, black_box(library), black_box(cost)));
        },
        || {
            let (record, words) = (black_box(theirs()), black_box(&mut *reference));
            black_box(reference::plan(record, words, black_box(cost)));
        },
    )
}

fn turns<'a>(records: &'a [Vec<u8>]) -> impl FnMut() -> &'a [u8] {
    let mut at = 0;
    move || {
        at = if at + 1 < records.len() { at + 1 } else { 0 };
        &records[at]
    }
}

fn copy_time() -> f64 {
    let kept = board(16);
    let mut boards = [Aligned(kept); 2];
    let [Aligned(one), Aligned(other)] = &mut boards;
    let times = pair(|| refresh(one, &kept), || refresh(other, &kept));
    times.0.min(times.1)
}

fn refresh(rows: &mut [Row; 16], kept: &[Row; 16]) {
    *black_box(rows) = *black_box(kept);
}

fn less(time: (f64, f64), copy: f64) -> (f64, f64) {
    (time.0 - copy, time.1 - copy)
}

/// A task that is put on a board, and the board as it is before.
struct Put {
    name: String,
    record: Vec<u8>,
    kept: [Row; 16],
}

/// On 64 cores each has room.
fn puts() -> Vec<Put> {
    let mut puts = Vec::new();
    for (standing, name) in [(0, "empty board"), (15, "15 standing")] {
        puts.extend(SHAPES.map(|shape| Put {
            name: format!("{} of 16, {name}", shape.0),
            record: record(shape, 16, 99),
            kept: board(standing),
        }));
    }
    puts.extend([1, 8, 64].map(|count| Put {
        name: format!("chain of {count}, empty board"),
        record: record(CHAIN, count, 99),
        kept: board(0),
    }));
    puts
}

fn notes(copy: f64) -> Vec<(f64, f64)> {
    let timed = |put: Put| {
        let time = put.times(
            |record, words, rows| ffi::note(record, words, rows, black_box(0)),
            |record, words, rows| reference::note(record, words, rows, black_box(0)),
        );
        let time = less(time, copy);
        line(&format!("note {}", put.name), time);
        time
    };
    puts().into_iter().map(timed).collect()
}

fn admissions(copy: f64) -> Vec<(f64, f64)> {
    let timed = |put: Put| {
        let time = put.times(
            |record, words, rows| ffi::admit(record, words, rows, black_box(CORES), black_box(0)),
            |record, words, rows| {
                reference::admit(record, words, rows, black_box(CORES), black_box(0))
            },
        );
        let time = less(time, copy);
        line(&format!("admit {}, for {CORES} cores", put.name), time);
        time
    };
    puts().into_iter().map(timed).collect()
}

impl Put {
    fn times(
        &self,
        ours: impl Fn(&[u8], &mut [u64], &mut [Row]) -> Answer,
        theirs: impl Fn(&[u8], &mut [u64], &mut [Row]) -> Answer,
    ) -> (f64, f64) {
        let Put { record, kept, .. } = self;
        let mut words = [Aligned([0; PLAN_WORDS]); 2];
        let [Aligned(library), Aligned(reference)] = &mut words;
        let mut boards = [Aligned(*kept); 2];
        let [Aligned(one), Aligned(other)] = &mut boards;
        // A refusal would be over sooner.
        let answer = ours(record, library, one);
        assert_eq!(answer.refusal, 0, "{}", self.name);
        pair(
            || {
                refresh(one, kept);
                let (record, words) = (black_box(record), black_box(&mut *library));
                black_box(ours(record, words, black_box(one)));
            },
            || {
                refresh(other, kept);
                let (record, words) = (black_box(record), black_box(&mut *reference));
                black_box(theirs(record, words, black_box(other)));
            },
        )
    }
}

/// What the guard costs, as a ratio.
fn guard(noted: &[(f64, f64)], admitted: &[(f64, f64)]) {
    println!();
    println!("the time to admit for {CORES} cores over the time to note");
    println!("{:NAMES$}{:>9}{:>11}", "", "library", "reference");
    for ((put, noted), admitted) in puts().iter().zip(noted).zip(admitted) {
        let (library, reference) = (admitted.0 / noted.0, admitted.1 / noted.1);
        println!("{:NAMES$}{library:9.2}{reference:11.2}", put.name);
    }
}

fn withdrawal(copy: f64) {
    let kept = board(16);
    let mut boards = [Aligned(kept); 2];
    let [Aligned(one), Aligned(other)] = &mut boards;
    let time = pair(
        || {
            refresh(one, &kept);
            black_box(ffi::withdraw(black_box(one), black_box(16)));
        },
        || {
            refresh(other, &kept);
            black_box(reference::withdraw(black_box(other), black_box(16)));
        },
    );
    line("withdraw the last row, full board", less(time, copy));
}

fn asking() {
    let rows = board(16);
    let time = pair(
        || {
            black_box(ffi::ask(black_box(&rows), black_box(16)));
        },
        || {
            black_box(reference::ask(black_box(&rows), black_box(16)));
        },
    );
    line("ask, full board", time);
    let time = pair(
        || {
            black_box(ffi::ask_to_end(black_box(&rows), black_box(16)));
        },
        || {
            black_box(reference::ask_to_end(black_box(&rows), black_box(16)));
        },
    );
    line("ask to the end, full board", time);
}

/// The longest record's times, written and read.
fn writing() -> ((f64, f64), (f64, f64)) {
    let task = Task::longest();
    let record = task.record();
    let written = write_times(&task);
    line(&format!("write {} bytes", record.len()), written);
    // No call reads and does nothing else. A byte more is refused when all of
    // the record is read, and the loops in it are not looked for.
    let followed = [&record[..], &[0]].concat();
    let answer = ffi::plan(&followed, &mut [0; PLAN_WORDS], 0);
    assert_eq!((answer.refusal, answer.place), (9, record.len() as u64));
    let read = plan_times(&[followed], 0);
    let name = format!("read {} bytes, then refusal 9", record.len());
    line(&name, read);
    (written, read)
}

fn write_times(task: &Task) -> (f64, f64) {
    let [Aligned(executions), Aligned(parents)] = &lists(task);
    let (edition, id, period) = (task.edition, task.id, task.period);
    let mut bytes = [Aligned([0; LONGEST]); 2];
    let [Aligned(library), Aligned(reference)] = &mut bytes;
    // A refusal would be over sooner.
    let answer = ffi::write_record(executions, parents, library, edition, id, period);
    assert_eq!(answer.value, task.record().len() as u64);
    pair(
        || {
            let (executions, parents) = (black_box(executions), black_box(parents));
            let (edition, id, period) = black_box((edition, id, period));
            let bytes = black_box(&mut *library);
            black_box(ffi::write_record(
                executions, parents, bytes, edition, id, period,
            ));
        },
        || {
            let (executions, parents) = (black_box(executions), black_box(parents));
            let (edition, id, period) = black_box((edition, id, period));
            let bytes = black_box(&mut *reference);
            black_box(reference::write_record(
                executions, parents, bytes, edition, id, period,
            ));
        },
    )
}

/// A table of one row: how many times as long as the others these times are.
fn over(title: &str, times: (f64, f64), others: (f64, f64)) {
    println!();
    println!("{title}");
    println!("{:NAMES$}{:>9}{:>11}", "", "library", "reference");
    let (library, reference) = (times.0 / others.0, times.1 / others.1);
    println!("{:NAMES$}{library:9.2}{reference:11.2}", "64 nodes");
}

/// The longest record's times, in which there is nothing to mend; and the times
/// of the longest that is mended.
fn mending() -> (f64, f64) {
    let record = Task::longest().record();
    let mended = mend_times(&record);
    let name = format!("mend {} bytes, nothing to mend", record.len());
    line(&name, mended);
    let given = Task::longest_given();
    let name = format!("mend {} bytes into {}", given.len(), record.len());
    line(&name, mend_times(&given));
    mended
}

fn mend_times(given: &[u8]) -> (f64, f64) {
    let mut bytes = [Aligned([0; LONGEST]); 2];
    let [Aligned(library), Aligned(reference)] = &mut bytes;
    // A refusal would be over sooner.
    let mending = ffi::mend(given, library);
    assert_eq!(mending.answer.value, LONGEST as u64);
    pair(
        || {
            black_box(ffi::mend(black_box(given), black_box(library)));
        },
        || {
            black_box(reference::mend(black_box(given), black_box(reference)));
        },
    )
}

/// The times of the text that the longest record is written of.
fn graph_reading() -> (f64, f64) {
    let text = Task::longest_text();
    let read = graph_times(&text);
    let name = format!("read a text of {} bytes, write {LONGEST}", text.len());
    line(&name, read);
    read
}

fn graph_times(text: &[u8]) -> (f64, f64) {
    let Task { id, period, .. } = Task::longest();
    let mut bytes = [Aligned([0; LONGEST]); 2];
    let [Aligned(library), Aligned(reference)] = &mut bytes;
    // A refusal would be over sooner.
    let answer = ffi::read_graph(text, library, id, period);
    assert_eq!(answer.value, LONGEST as u64);
    pair(
        || {
            let (text, bytes) = (black_box(text), black_box(&mut *library));
            let (id, period) = black_box((id, period));
            black_box(ffi::read_graph(text, bytes, id, period));
        },
        || {
            let (text, bytes) = (black_box(text), black_box(&mut *reference));
            let (id, period) = black_box((id, period));
            black_box(reference::read_graph(text, bytes, id, period));
        },
    )
}

/// A plan of 64 nodes, and the longest that there is.
fn plan_records() {
    let record = own_plan(&record(CHAIN, 64, 1), 0);
    let mut words = Aligned([0; PLAN_WORDS]);
    let id = ffi::read_plan(&record, &mut words.0).value;
    let longest = longest_plan();
    for (name, (words, id)) in [
        ("a plan, chain of 64", (words, id)),
        ("the longest", longest),
    ] {
        let (written, record) = plan_write_times(&words, id);
        line(&format!("write {name}, {} bytes", record.len()), written);
        let read = plan_read_times(&record, id);
        line(&format!("read {name}, {} bytes", record.len()), read);
    }
}

/// With what is written.
fn plan_write_times(words: &Aligned<[u64; PLAN_WORDS]>, id: u64) -> ((f64, f64), Vec<u8>) {
    let mut bytes = [Aligned([0; LONGEST_PLAN]); 2];
    let [Aligned(library), Aligned(reference)] = &mut bytes;
    let words = &words.0;
    let answer = ffi::write_plan(words, library, id);
    // A refusal would be over sooner.
    assert_eq!(answer.refusal, 0);
    let record = library[..answer.value as usize].to_vec();
    let times = pair(
        || {
            let (words, bytes) = (black_box(words), black_box(&mut *library));
            black_box(ffi::write_plan(words, bytes, black_box(id)));
        },
        || {
            let (words, bytes) = (black_box(words), black_box(&mut *reference));
            black_box(reference::write_plan(words, bytes, black_box(id)));
        },
    );
    (times, record)
}

fn plan_read_times(record: &[u8], id: u64) -> (f64, f64) {
    let mut words = [Aligned([0; PLAN_WORDS]); 2];
    let [Aligned(library), Aligned(reference)] = &mut words;
    // A refusal would be over sooner.
    assert_eq!(ffi::read_plan(record, library).value, id);
    pair(
        || {
            black_box(ffi::read_plan(black_box(record), black_box(library)));
        },
        || {
            black_box(reference::read_plan(
                black_box(record),
                black_box(reference),
            ));
        },
    )
}

/// A task that is judged with its own plan, and the times to judge and to plan it.
struct Judged {
    name: String,
    judged: (f64, f64),
    planned: (f64, f64),
}

fn judging() -> Vec<Judged> {
    let mut tasks: Vec<(String, Vec<u8>)> = SHAPES
        .map(|shape| (format!("{} of 64", shape.0), record(shape, 64, 1)))
        .into();
    tasks.push(("chain of 64, half of it joins".into(), half_joins(64, 1)));
    let timed = |(name, record): (String, Vec<u8>)| {
        let judged = judge_times(&record);
        line(&format!("judge {name}, its own plan"), judged);
        Judged {
            name,
            judged,
            planned: plan_times(&[record], 0),
        }
    };
    tasks.into_iter().map(timed).collect()
}

fn judge_times(record: &[u8]) -> (f64, f64) {
    let plan = &own_plan(record, 0)[..];
    let mut words = [Aligned([0; PLAN_WORDS]); 2];
    let [Aligned(library), Aligned(reference)] = &mut words;
    // A refusal would be over sooner.
    assert_eq!(ffi::judge(record, plan, library, 0).refusal, 0);
    pair(
        || {
            let (record, plan) = (black_box(record), black_box(plan));
            black_box(ffi::judge(record, plan, black_box(library), black_box(0)));
        },
        || {
            let (record, plan) = (black_box(record), black_box(plan));
            let words = black_box(&mut *reference);
            black_box(reference::judge(record, plan, words, black_box(0)));
        },
    )
}

/// What judging costs beside planning, as a ratio.
fn judge(tasks: &[Judged]) {
    println!();
    println!("the time to judge a task's own plan over the time to plan the task");
    println!("{:NAMES$}{:>9}{:>11}", "", "library", "reference");
    for task in tasks {
        let (judged, planned) = (task.judged, task.planned);
        let (library, reference) = (judged.0 / planned.0, judged.1 / planned.1);
        println!("{:NAMES$}{library:9.2}{reference:11.2}", task.name);
    }
}

/// Walks through files, beside planning their records one by one.
fn buildings() {
    println!();
    println!("nanoseconds for each record of a file as large as it may be, at the best of several");
    println!("depths of the stack: walked through by the library, planned by it one by one, and");
    println!("walked through by the reference");
    println!(
        "{:NAMES$}{:>9}{:>12}{:>7}{:>11}{:>7}",
        "", "library", "one by one", "ratio", "reference", "ratio"
    );
    for count in [1, 8, 16, 64] {
        let building = Building::of(count);
        let [walked, planned, reference] = building_times(&building);
        let records = building.parts.len();
        let name = format!("walk {records} different, scattered {count}");
        let ratios = [walked / planned, walked / reference];
        print!("{name:NAMES$}{walked:9.1}{planned:12.1}{:7.2}", ratios[0]);
        println!("{reference:11.1}{:7.2}", ratios[1]);
    }
}

fn building_times(Building { file, parts }: &Building) -> [f64; 3] {
    let mut words = Aligned([0; PLAN_WORDS]);
    // A refusal would be over sooner.
    assert_eq!(ffi::building(file, 0).accepted, parts.len() as u64);
    let times = long([
        &mut || {
            black_box(ffi::building(black_box(file), black_box(0)));
        },
        &mut || {
            for part in parts {
                let record = black_box(&file[part.clone()]);
                black_box(ffi::plan(record, black_box(&mut words.0), black_box(0)));
            }
        },
        &mut || {
            black_box(reference::building(black_box(file), black_box(0)));
        },
    ]);
    times.map(|time| time / parts.len() as f64)
}
