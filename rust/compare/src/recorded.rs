//! What request j asks of reading and of writing plan records, looked at in the
//! library's answers by themselves. The record is taken apart, or put together,
//! here as well.

use crate::case::Call;
use crate::foreign::{Foreign, PlanWriting, LARGEST_NUMBER};
use crate::refused::Refused;
use crate::writing::old_bytes;
use crate::written::refused;
use reference::{Answer, PLAN_WORDS};

const WORDS: &str = "fewer than 387 words are 16 at 0";
const PARTS: &str = "what is read is what the record taken apart has, or its refusal";
const REST: &str = "the plan's words are written, and nothing past them";
const AGAIN: &str = "what is read is written again, byte for byte";
const ORDER: &str = "16, 24 at a count's word, 28 and then 19 at the bytes' number, just there";
const RECORD: &str = "the record is written, and nothing past it";
const BACK: &str = "what is written reads back as the same plan";

/// The first rule that the answer breaks. The words are those that were lent,
/// before the call and after it.
pub fn broken(
    call: &Call,
    answer: &Answer,
    words: [&[u64]; 2],
    bytes: &[u8],
) -> Option<&'static str> {
    match call {
        Call::ReadPlan(record) => broken_reading(record, answer, words),
        Call::WritePlan(writing) => broken_writing(writing, answer, bytes),
        _ => None,
    }
}

pub fn accepted(value: u64) -> Answer {
    Answer {
        value,
        ..Answer::default()
    }
}

/// After a refusal, that the words are as they were, is looked at elsewhere.
fn broken_reading(
    record: &[u8],
    answer: &Answer,
    [before, after]: [&[u64]; 2],
) -> Option<&'static str> {
    if before.len() < PLAN_WORDS {
        return (*answer != refused(16, 0)).then_some(WORDS);
    }
    let foreign = match Foreign::read(record) {
        Err(refusal) => return (*answer != refusal).then_some(PARTS),
        Ok(foreign) => foreign,
    };
    let plan = foreign.words();
    if *answer != accepted(foreign.id) || !after.starts_with(&plan) {
        return Some(PARTS);
    }
    let rest = plan.len()..;
    if after[rest.clone()] != before[rest] {
        return Some(REST);
    }
    let mut bytes = old_bytes(record.len() as u64);
    let written = ffi::write_plan(after, &mut bytes, answer.value);
    let is_same = written == accepted(record.len() as u64) && bytes == record;
    (!is_same).then_some(AGAIN)
}

fn broken_writing(writing: &PlanWriting, answer: &Answer, bytes: &[u8]) -> Option<&'static str> {
    let mut expected = old_bytes(writing.lent);
    let foreign = match put_together(writing) {
        Err(refusal) if *answer != refusal => return Some(ORDER),
        Err(_) => return (bytes != expected).then_some(RECORD),
        Ok(foreign) => foreign,
    };
    let record = foreign.record();
    if *answer != accepted(record.len() as u64) {
        return Some(ORDER);
    }
    expected[..record.len()].copy_from_slice(&record);
    if bytes != expected {
        return Some(RECORD);
    }
    let plan = foreign.words();
    let mut back = [0; PLAN_WORDS];
    let read = ffi::read_plan(&record, &mut back);
    let is_same = read == accepted(writing.id) && back.starts_with(&plan);
    (!is_same).then_some(BACK)
}

/// The plan that is to be written, or its refusal.
fn put_together(writing: &PlanWriting) -> Result<Foreign, Answer> {
    let PlanWriting { words, id, lent } = writing;
    if words.len() < PLAN_WORDS {
        return Err(refused(16, 0));
    }
    if let Some(at) = [1, 2]
        .into_iter()
        .find(|&at| !(1..=64).contains(&words[at]))
    {
        return Err(refused(24, at as u64));
    }
    let foreign = Foreign::of_words(*id, words).expect("387 words hold 64 of each");
    if foreign
        .numbers()
        .iter()
        .any(|&number| number > LARGEST_NUMBER)
    {
        return Err(refused(28, 0));
    }
    match *lent < foreign.record().len() as u64 {
        true => Err(refused(19, *lent)),
        false => Ok(foreign),
    }
}

/// How many plan records were read and written, and how many refused by which
/// number.
#[derive(Default)]
pub struct Tally {
    pub read: u64,
    pub not_read: Refused,
    pub written: u64,
    pub not_written: Refused,
}

impl Tally {
    pub fn count(&mut self, call: &Call, answer: &Answer) {
        match (call, answer.refusal) {
            (Call::ReadPlan(_), 0) => self.read += 1,
            (Call::ReadPlan(_), number) => self.not_read.count(number),
            (Call::WritePlan(_), 0) => self.written += 1,
            (Call::WritePlan(_), number) => self.not_written.count(number),
            _ => (),
        }
    }

    pub fn add(&mut self, other: &Tally) {
        self.read += other.read;
        self.not_read.add(&other.not_read);
        self.written += other.written;
        self.not_written.add(&other.not_written);
    }
}
