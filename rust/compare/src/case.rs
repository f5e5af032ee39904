//! One case: buffers as they are lent, and calls made on them in turn, by
//! the library and by the reference, each on its own copy.

use crate::foreign::PlanWriting;
use crate::graph::Graph;
use crate::guarded::{self, Buffers, Guard};
use crate::said::Said;
use crate::writing::{old_bytes, Writing};
use crate::{counted, graphed, judged, mended, recorded, rounds, sales, written};
use reference::{Answer, Counts, Mending, Row};

#[derive(Clone, PartialEq)]
pub enum Call {
    /// A record, and a cost.
    Plan(Vec<u8>, u64),
    Note(Vec<u8>, u64),
    Admit {
        record: Vec<u8>,
        cores: u64,
        cost: u64,
    },
    Withdraw(u64),
    Ask(u64),
    AskToEnd(u64),
    Write(Writing),
    /// A record, and the number of bytes lent.
    Mend {
        given: Vec<u8>,
        lent: u64,
    },
    ReadGraph(Graph),
    Building {
        file: Vec<u8>,
        cost: u64,
    },
    /// A plan record.
    ReadPlan(Vec<u8>),
    WritePlan(PlanWriting),
    /// A task's record, a plan's, and a cost.
    Judge {
        record: Vec<u8>,
        plan: Vec<u8>,
        cost: u64,
    },
}

impl Call {
    pub const ASKS: [fn(u64) -> Call; 2] = [Call::Ask, Call::AskToEnd];

    /// Planned, then noted.
    pub fn both(record: &[u8], cost: u64) -> [Call; 2] {
        let record = record.to_vec();
        [Call::Plan(record.clone(), cost), Call::Note(record, cost)]
    }

    pub fn admit(record: &[u8], cores: u64, cost: u64) -> Call {
        Call::Admit {
            record: record.to_vec(),
            cores,
            cost,
        }
    }

    /// For both verdicts.
    pub fn asks(cores: u64) -> [Call; 2] {
        Call::ASKS.map(|ask| ask(cores))
    }

    /// The task's record that the call reads, if it reads just one.
    pub fn record(&self) -> Option<&[u8]> {
        match self {
            Call::Plan(record, _)
            | Call::Note(record, _)
            | Call::Admit { record, .. }
            | Call::Mend { given: record, .. }
            | Call::Judge { record, .. } => Some(record),
            Call::Withdraw(_)
            | Call::Ask(_)
            | Call::AskToEnd(_)
            | Call::Write(_)
            | Call::ReadGraph(_)
            | Call::Building { .. }
            | Call::ReadPlan(_)
            | Call::WritePlan(_) => None,
        }
    }
}

#[derive(Clone, PartialEq)]
pub struct Case {
    pub words: Vec<u64>,
    pub board: Vec<Row>,
    pub calls: Vec<Call>,
}

impl Case {
    /// Of a call that needs neither words nor a board.
    pub fn alone(call: Call) -> Case {
        Case {
            words: vec![],
            board: vec![],
            calls: vec![call],
        }
    }
}

/// The first call after which the two sides aren't equal, or the library's
/// answer breaks a rule of loops, of admitting, of writing, of mending, of graphs,
/// of buildings or of plans, or a promise of the sales sheet.
pub struct Difference {
    pub call: usize,
    pub library: Said,
    pub reference: Said,
    /// The first differing word, row or byte, if it is in a buffer.
    pub spot: Option<String>,
    /// The rule or promise that the library's answer breaks.
    pub broken: Option<&'static str>,
}

/// The thirteen calls of one side.
struct Planner {
    plan: fn(&[u8], &mut [u64], u64) -> Answer,
    note: fn(&[u8], &mut [u64], &mut [Row], u64) -> Answer,
    admit: fn(&[u8], &mut [u64], &mut [Row], u64, u64) -> Answer,
    withdraw: fn(&mut [Row], u64) -> Answer,
    ask: fn(&[Row], u64) -> Answer,
    ask_to_end: fn(&[Row], u64) -> Answer,
    write_record: fn(&[u64], &[u64], &mut [u8], u64, u64, u64) -> Answer,
    mend: fn(&[u8], &mut [u8]) -> Mending,
    read_graph: fn(&[u8], &mut [u8], u64, u64) -> Answer,
    building: fn(&[u8], u64) -> Counts,
    read_plan: fn(&[u8], &mut [u64]) -> Answer,
    write_plan: fn(&[u64], &mut [u8], u64) -> Answer,
    judge: fn(&[u8], &[u8], &mut [u64], u64) -> Answer,
}

const LIBRARY: Planner = Planner {
    plan: ffi::plan,
    note: ffi::note,
    admit: ffi::admit,
    withdraw: ffi::withdraw,
    ask: ffi::ask,
    ask_to_end: ffi::ask_to_end,
    write_record: ffi::write_record,
    mend: ffi::mend,
    read_graph: ffi::read_graph,
    building: ffi::building,
    read_plan: ffi::read_plan,
    write_plan: ffi::write_plan,
    judge: ffi::judge,
};

const REFERENCE: Planner = Planner {
    plan: reference::plan,
    note: reference::note,
    admit: reference::admit,
    withdraw: reference::withdraw,
    ask: reference::ask,
    ask_to_end: reference::ask_to_end,
    write_record: reference::write_record,
    mend: reference::mend,
    read_graph: reference::read_graph,
    building: reference::building,
    read_plan: reference::read_plan,
    write_plan: reference::write_plan,
    judge: reference::judge,
};

/// What is counted over the calls, where nothing differs.
#[derive(Default)]
pub struct Tally {
    pub guarded: guarded::Tally,
    pub written: written::Tally,
    pub mended: mended::Tally,
    pub graphed: graphed::Tally,
    pub counted: counted::Tally,
    pub recorded: recorded::Tally,
    pub judged: judged::Tally,
}

impl Tally {
    pub fn add(&mut self, other: &Tally) {
        self.guarded.add(&other.guarded);
        self.written.add(&other.written);
        self.mended.add(&other.mended);
        self.graphed.add(&other.graphed);
        self.counted.add(&other.counted);
        self.recorded.add(&other.recorded);
        self.judged.add(&other.judged);
    }
}

pub fn difference(case: &Case) -> Option<Box<Difference>> {
    compared(case).err()
}

pub fn compared(case: &Case) -> Result<Tally, Box<Difference>> {
    let mut library = Lent::new(case);
    let mut reference = Lent::new(case);
    let mut guard = Guard::of(&case.board);
    let mut tally = Tally::default();
    for (at, call) in case.calls.iter().enumerate() {
        let before = library.clone();
        let ours = library.make(call, &LIBRARY);
        let theirs = reference.make(call, &REFERENCE);
        let broken = library
            .broken(call, &ours, &before)
            .or_else(|| guard.broken(call, ours.answer(), library.board.content()));
        if ours != theirs || library != reference || broken.is_some() {
            return Err(Box::new(Difference {
                call: at,
                library: ours,
                reference: theirs,
                spot: library.first_difference(&reference),
                broken,
            }));
        }
        tally.guarded.count(call, ours.answer());
        tally.written.count(call, ours.answer());
        tally.mended.count(&ours);
        tally.graphed.count(call, ours.answer());
        tally.counted.count(&ours);
        tally.recorded.count(call, ours.answer());
        tally.judged.count(call, ours.answer());
    }
    Ok(tally)
}

/// One side's buffers, each inside a fence that a call must not touch.
#[derive(Clone, PartialEq)]
struct Lent {
    words: Fenced<u64>,
    board: Fenced<Row>,
    record: Fenced<u8>,
    executions: Fenced<u64>,
    parents: Fenced<u64>,
    text: Fenced<u8>,
    file: Fenced<u8>,
    plan: Fenced<u8>,
    /// What the writer of plans is given.
    plan_words: Fenced<u64>,
    bytes: Fenced<u8>,
}

impl Lent {
    fn new(case: &Case) -> Lent {
        let post = 0xFE9C_E000_FE9C_E000;
        let row = Row {
            id: post,
            nodes: post,
            sum: post,
            largest: post,
            longest: post,
            shortest: post,
            over: post,
        };
        Lent {
            words: Fenced::new(&case.words, post),
            board: Fenced::new(&case.board, row),
            // Reading on past the end, one would meet good numbers.
            record: Fenced::new(&[], 1),
            executions: Fenced::new(&[], 1),
            parents: Fenced::new(&[], 1),
            text: Fenced::new(&[], b'1'),
            file: Fenced::new(&[], 1),
            plan: Fenced::new(&[], 1),
            plan_words: Fenced::new(&[], 1),
            bytes: Fenced::new(&[], 0xFE),
        }
    }

    /// What the call itself brings.
    fn refill(&mut self, call: &Call) {
        if let Some(record) = call.record() {
            self.record.refill(record);
        }
        match call {
            Call::Write(writing) => {
                self.executions.refill(&writing.executions);
                self.parents.refill(&writing.parents);
                self.bytes.refill(&old_bytes(writing.lent));
            }
            Call::Mend { lent, .. } => self.bytes.refill(&old_bytes(*lent)),
            Call::ReadGraph(graph) => {
                self.text.refill(&graph.text);
                self.bytes.refill(&old_bytes(graph.lent));
            }
            Call::Building { file, .. } => self.file.refill(file),
            Call::ReadPlan(plan) | Call::Judge { plan, .. } => self.plan.refill(plan),
            Call::WritePlan(writing) => {
                self.plan_words.refill(&writing.words);
                self.bytes.refill(&old_bytes(writing.lent));
            }
            _ => (),
        }
    }

    fn make(&mut self, call: &Call, by: &Planner) -> Said {
        self.refill(call);
        let words = self.words.inside();
        let board = self.board.inside();
        let answer = match *call {
            Call::Plan(_, cost) => (by.plan)(self.record.inside(), words, cost),
            Call::Note(_, cost) => (by.note)(self.record.inside(), words, board, cost),
            Call::Admit { cores, cost, .. } => {
                (by.admit)(self.record.inside(), words, board, cores, cost)
            }
            Call::Withdraw(id) => (by.withdraw)(board, id),
            Call::Ask(cores) => (by.ask)(board, cores),
            Call::AskToEnd(cores) => (by.ask_to_end)(board, cores),
            Call::Write(Writing {
                edition,
                id,
                period,
                ..
            }) => {
                let (executions, parents) = (self.executions.inside(), self.parents.inside());
                let bytes = self.bytes.inside();
                (by.write_record)(executions, parents, bytes, edition, id, period)
            }
            Call::Mend { .. } => {
                let mending = (by.mend)(self.record.inside(), self.bytes.inside());
                return Said::Mending(mending);
            }
            Call::ReadGraph(Graph { id, period, .. }) => {
                (by.read_graph)(self.text.inside(), self.bytes.inside(), id, period)
            }
            Call::Building { cost, .. } => {
                let counts = (by.building)(self.file.inside(), cost);
                return Said::Counts(Box::new(counts));
            }
            Call::ReadPlan(_) => (by.read_plan)(self.plan.inside(), words),
            Call::WritePlan(PlanWriting { id, .. }) => {
                (by.write_plan)(self.plan_words.inside(), self.bytes.inside(), id)
            }
            Call::Judge { cost, .. } => {
                (by.judge)(self.record.inside(), self.plan.inside(), words, cost)
            }
        };
        Said::Answer(answer)
    }

    /// The first rule or promise that the answer breaks by itself.
    fn broken(&self, call: &Call, said: &Said, before: &Lent) -> Option<&'static str> {
        let answer = said.answer();
        let board = self.board.content();
        let words = [before.words.content(), self.words.content()];
        rounds::broken(call, answer)
            .or_else(|| sales::broken(call, answer, board))
            .or_else(|| guarded::broken(call, answer, before.buffers(), self.buffers()))
            .or_else(|| written::broken(call, answer, self.bytes.content()))
            .or_else(|| mended::broken(call, said, self.bytes.content()))
            .or_else(|| graphed::broken(call, answer, self.bytes.content()))
            .or_else(|| counted::broken(call, said))
            .or_else(|| recorded::broken(call, answer, words, self.bytes.content()))
            .or_else(|| judged::broken(call, answer, words))
    }

    fn buffers(&self) -> Buffers<'_> {
        (self.words.content(), self.board.content())
    }

    fn first_difference(&self, reference: &Lent) -> Option<String> {
        let word = self.words.first_difference(&reference.words, "word");
        let row = || self.board.first_difference(&reference.board, "row");
        let byte = || self.record.first_difference(&reference.record, "byte");
        let execution = || {
            self.executions
                .first_difference(&reference.executions, "execution")
        };
        let set = || {
            self.parents
                .first_difference(&reference.parents, "set of parents")
        };
        let text = || {
            self.text
                .first_difference(&reference.text, "byte of the text")
        };
        let file = || {
            self.file
                .first_difference(&reference.file, "byte of the file")
        };
        let plan = || {
            self.plan
                .first_difference(&reference.plan, "byte of the plan")
        };
        let plan_word = || {
            self.plan_words
                .first_difference(&reference.plan_words, "word to write")
        };
        let written = || {
            self.bytes
                .first_difference(&reference.bytes, "written byte")
        };
        let read = word.or_else(row).or_else(byte);
        let read = read.or_else(execution).or_else(set).or_else(text);
        let read = read.or_else(file).or_else(plan).or_else(plan_word);
        read.or_else(written)
    }
}

#[derive(Clone, PartialEq)]
struct Fenced<T> {
    items: Vec<T>,
    post: T,
}

impl<T: Copy + PartialEq + std::fmt::Debug> Fenced<T> {
    const POSTS: usize = 8;

    fn new(content: &[T], post: T) -> Fenced<T> {
        let items = Vec::with_capacity(content.len() + 2 * Self::POSTS);
        let mut fenced = Fenced { items, post };
        fenced.refill(content);
        fenced
    }

    fn refill(&mut self, content: &[T]) {
        let fence = [self.post; 8];
        self.items.clear();
        self.items.extend_from_slice(&fence);
        self.items.extend_from_slice(content);
        self.items.extend_from_slice(&fence);
    }

    fn inside(&mut self) -> &mut [T] {
        let end = self.items.len() - Self::POSTS;
        &mut self.items[Self::POSTS..end]
    }

    fn content(&self) -> &[T] {
        &self.items[Self::POSTS..self.items.len() - Self::POSTS]
    }

    /// A negative number, or one past the end, is a post of the fence.
    fn first_difference(&self, reference: &Fenced<T>, name: &str) -> Option<String> {
        let mut pairs = self.items.iter().zip(&reference.items);
        let at = pairs.position(|(one, other)| one != other)?;
        let number = at as isize - Self::POSTS as isize;
        let (library, reference) = (self.items[at], reference.items[at]);
        Some(format!(
            "first differing {name} {number}: library {library:?}, reference {reference:?}"
        ))
    }
}
