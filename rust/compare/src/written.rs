//! What request b asks of writing, looked at in the library's answers by
//! themselves. The record is made here as well, without regard to limits: where
//! reading would refuse that one, writing has to refuse the lists.

use crate::case::Call;
use crate::refused::Refused;
use crate::writing::{old_bytes, Writing};
use ffi::task::encoded;
use reference::{Answer, Table, PLAN_WORDS};

/// A rule in words, and whether it holds.
type Rule = (&'static str, fn(&Written) -> bool);

const RULES: [Rule; 6] = [
    ("lists that differ are 19 at 0", Written::has_lists),
    (
        "what reading would refuse is refused likewise",
        Written::is_refused_alike,
    ),
    (
        "too few bytes are 19 at their number, just there",
        Written::has_room,
    ),
    (
        "the record is written, and nothing past it",
        Written::is_the_record,
    ),
    (
        "what is written reads back as the same table",
        Written::reads_back,
    ),
    (
        "what is written is planned as the reference has it",
        Written::is_planned_alike,
    ),
];

/// The first rule that the answer breaks.
pub fn broken(call: &Call, answer: &Answer, bytes: &[u8]) -> Option<&'static str> {
    let Call::Write(writing) = call else {
        return None;
    };
    let record = record(writing);
    let written = Written {
        writing: writing.clone(),
        refusal: refusal(&record),
        record,
        answer: *answer,
        bytes: bytes.to_vec(),
    };
    let broken = RULES.into_iter().find(|(_, holds)| !holds(&written));
    broken.map(|(rule, _)| rule)
}

/// In four bytes, and above every limit. It stands in for larger ones, of which
/// reading would refuse the form and not the range.
const LARGEST_NUMBER: u64 = (1 << 28) - 1;

fn record(writing: &Writing) -> Vec<u8> {
    let numbers = writing.numbers().into_iter();
    let numbers: Vec<u64> = numbers.map(|number| number.min(LARGEST_NUMBER)).collect();
    encoded(&numbers)
}

/// The library's own, for reading the record.
pub fn refusal(record: &[u8]) -> Option<Answer> {
    let answer = ffi::plan(record, &mut [0; PLAN_WORDS], 0);
    (!matches!(answer.refusal, 0 | 10 | 11)).then_some(answer)
}

/// An answer and the bytes after it, beside the record as it would be and the
/// refusal of that one.
struct Written {
    writing: Writing,
    record: Vec<u8>,
    refusal: Option<Answer>,
    answer: Answer,
    bytes: Vec<u8>,
}

impl Written {
    fn are_lists_alike(&self) -> bool {
        self.writing.executions.len() == self.writing.parents.len()
    }

    fn has_lists(&self) -> bool {
        self.are_lists_alike() || self.answer == refused(19, 0)
    }

    fn is_refused_alike(&self) -> bool {
        let alike = |refusal| self.answer == refusal;
        !self.are_lists_alike() || self.refusal.is_none_or(alike)
    }

    fn has_room(&self) -> bool {
        let lent = self.writing.lent;
        let is_short = lent < self.record.len() as u64;
        !self.are_lists_alike()
            || self.refusal.is_some()
            || is_short == (self.answer == refused(19, lent))
    }

    /// Of a refusal, that nothing is written.
    fn is_the_record(&self) -> bool {
        let mut bytes = old_bytes(self.writing.lent);
        if self.answer.refusal != 0 {
            return self.bytes == bytes;
        }
        let length = self.record.len();
        bytes[..length].copy_from_slice(&self.record);
        self.answer.value == length as u64 && self.bytes == bytes
    }

    /// None after a refusal.
    fn written(&self) -> Option<&[u8]> {
        (self.answer.refusal == 0).then(|| &self.bytes[..self.answer.value as usize])
    }

    fn reads_back(&self) -> bool {
        let Writing {
            edition,
            id,
            period,
            ref executions,
            ref parents,
            ..
        } = self.writing;
        let is_same = |table: Table| {
            (table.edition, table.id, table.period) == (edition, id, period)
                && lists(&table) == (executions, parents)
        };
        let reads_back = |record| reference::read(record).is_ok_and(is_same);
        self.written().is_none_or(reads_back)
    }

    fn is_planned_alike(&self) -> bool {
        let (mut ours, mut theirs) = ([0; PLAN_WORDS], [0; PLAN_WORDS]);
        self.written().is_none_or(|record| {
            ffi::plan(record, &mut ours, 0) == reference::plan(record, &mut theirs, 0)
                && ours == theirs
        })
    }
}

fn lists(table: &Table) -> (&[u64], &[u64]) {
    let Table {
        count,
        executions,
        parents,
        ..
    } = table;
    (&executions[..*count], &parents[..*count])
}

pub fn refused(refusal: u64, place: u64) -> Answer {
    Answer {
        refusal,
        place,
        ..Answer::default()
    }
}

/// What has to give that record again, if the reference reads it.
pub fn again(record: &[u8]) -> Option<Writing> {
    let table = reference::read(record).ok()?;
    Some(of(&table, record.len() as u64))
}

/// A table to be written into so many bytes.
pub fn of(table: &Table, lent: u64) -> Writing {
    let (executions, parents) = lists(table);
    Writing {
        edition: table.edition,
        id: table.id,
        period: table.period,
        executions: executions.to_vec(),
        parents: parents.to_vec(),
        lent,
    }
}

/// Whether the library writes that record, byte for byte.
pub fn gives(writing: &Writing, record: &[u8]) -> bool {
    let Writing {
        edition,
        id,
        period,
        ref executions,
        ref parents,
        ..
    } = *writing;
    let mut bytes = old_bytes(writing.lent);
    let answer = ffi::write_record(executions, parents, &mut bytes, edition, id, period);
    let accepted = Answer {
        value: record.len() as u64,
        ..Answer::default()
    };
    answer == accepted && bytes == record
}

/// How many records were written, and how many refused by which number.
#[derive(Default)]
pub struct Tally {
    pub written: u64,
    pub refused: Refused,
}

impl Tally {
    pub fn count(&mut self, call: &Call, answer: &Answer) {
        match (call, answer.refusal) {
            (Call::Write(_), 0) => self.written += 1,
            (Call::Write(_), number) => self.refused.count(number),
            _ => (),
        }
    }

    pub fn add(&mut self, other: &Tally) {
        self.written += other.written;
        self.refused.add(&other.refused);
    }
}
