//! Records to start from, and ways to spoil one.

use crate::random::Random;
use crate::tasks::{random_task, task_of};
use ffi::task::{chain, dense, encoded, fork, number, stretched, Node, Task};

/// Document 01's records, one whose child is listed first, and some of
/// edition 2: a join first, last and between, no step at all, joins on a loop.
pub const WORKED: [&[u8]; 18] = [
    &[1, 7, 5, 1, 5, 0],
    &[1, 7, 10, 1, 5, 0],
    &[1, 7, 4, 1, 5, 0],
    &[1, 7, 3, 3, 1, 0, 1, 1, 0, 1, 1, 1],
    &[1, 9, 4, 4, 2, 0, 1, 1, 0, 1, 1, 0, 1, 1, 0],
    &[1, 3, 6, 3, 3, 0, 1, 0, 1, 1, 1],
    &[1, 7, 5, 1, 5, 1, 0],
    &[1, 7, 9, 2, 1, 1, 1, 1, 1, 0],
    &[1, 7, 9, 2, 1, 1, 1, 2, 0],
    &[1, 7, 0xFF, 0xFF, 0xFF, 0x07, 1, 5, 0],
    &[1, 0xFF, 0xFF, 3, 0xFF, 0xFF, 3, 1, 0xFF, 0xFF, 3, 0],
    &[2, 3, 6, 3, 3, 0, 1, 0, 1, 1, 1],
    &[2, 7, 9, 2, 0, 0, 3, 1, 0],
    &[2, 7, 9, 2, 3, 0, 0, 1, 0],
    &[2, 9, 10, 4, 2, 0, 4, 0, 0, 2, 0, 1, 1, 1, 2],
    &[2, 7, 9, 1, 0, 0],
    &[2, 7, 9, 2, 0, 1, 1, 0, 1, 0],
    &[2, 7, 9, 3, 3, 0, 0, 1, 2, 0, 1, 1],
];

/// Well-formed numbers of short records, to be changed one by one.
pub fn short_lists(random: &mut Random) -> Vec<Vec<u64>> {
    let mut tasks: Vec<Task> = [1, 2, 3, 5].map(|count| task_of(random, count, 0)).into();
    tasks.extend([chain(64), fork(64), dense(12)].map(plain_task));
    tasks.extend([chain(16), fork(16)].map(half_joins));
    tasks.iter().map(Task::numbers).collect()
}

/// Records of all sizes, up to the longest.
pub fn samples(random: &mut Random) -> Vec<Vec<u8>> {
    let mut records: Vec<Vec<u8>> = WORKED.iter().map(|record| record.to_vec()).collect();
    let shapes = [chain(64), fork(64), dense(64)];
    records.extend(shapes.map(|parents| plain_task(parents).record()));
    let shapes = [chain(64), fork(64), dense(16)];
    records.extend(shapes.map(|parents| half_joins(parents).record()));
    records.push(Task::longest().record());
    records.extend((0..12).map(|_| random_task(random, 0).record()));
    records
}

/// The plain task in edition 2, every other node a join, the first one too.
pub fn half_joins(parents: Vec<Vec<u64>>) -> Task {
    plain_task(parents).half_joins(0)
}

pub fn plain_task(parents: Vec<Vec<u64>>) -> Task {
    let node = |parents: Vec<u64>| Node {
        execution: 300 + parents.len() as u64,
        parents,
    };
    Task {
        edition: 1,
        id: 500,
        period: 40_000,
        nodes: parents.into_iter().map(node).collect(),
    }
}

/// The record with one number's bytes replaced.
pub fn with_form(numbers: &[u64], at: usize, form: &[u8]) -> Vec<u8> {
    let mut record = encoded(&numbers[..at]);
    record.extend(form);
    record.extend(encoded(&numbers[at + 1..]));
    record
}

/// One for fields that begin at 1, for counts and parents, for ids and executions,
/// for periods.
const OUT_OF_RANGE: [u64; 4] = [0, 65, 65_536, 16_777_216];

/// Ways to write a number, or one out of range, that are padded, too long, cut,
/// or two of these.
pub fn bad_forms(value: u64) -> Vec<Vec<u8>> {
    let mut forms = padded(value);
    forms.extend(OUT_OF_RANGE.into_iter().flat_map(padded));
    for length in 1..=5 {
        forms.push(vec![0x80; length]);
        forms.push(vec![0xFF; length]);
    }
    forms.push(vec![0xFF, 0xFF, 0xFF, 0x7F]);
    forms.push(vec![0x80, 0x80, 0x80, 0x01]);
    forms
}

/// A number with groups of zeros after it, up to six bytes.
fn padded(value: u64) -> Vec<Vec<u8>> {
    let longer = number(value).len() + 1..=6;
    longer.map(|bytes| stretched(value, bytes)).collect()
}

/// A record with one number in a bad form; sometimes it ends there.
pub fn misspelt(random: &mut Random, numbers: &[u64]) -> Vec<u8> {
    let at = random.index(numbers.len());
    let forms = bad_forms(numbers[at]);
    let form = &forms[random.index(forms.len())];
    let mut record = with_form(numbers, at, form);
    if random.one_in(4) {
        record.truncate(encoded(&numbers[..at]).len() + form.len());
    }
    record
}

/// A record with one to three changes of its bytes.
pub fn spoilt(random: &mut Random, mut record: Vec<u8>) -> Vec<u8> {
    for _ in 0..random.between(1, 3) {
        let at = random.index(record.len() + 1);
        let byte = random.pick(&[0, 1, 2, 63, 64, 65, 0x7F, 0x80, 0x81, 0xFF]);
        match random.below(4) {
            0 => record.insert(at, byte),
            1 if at < record.len() => drop(record.remove(at)),
            2 if at < record.len() => record[at] ^= 1 << random.below(8),
            3 if at < record.len() => record[at] = byte,
            _ => record.truncate(at),
        }
    }
    record
}

/// Bytes by chance; most of them begin well enough to be read on.
pub fn random_bytes(random: &mut Random) -> Vec<u8> {
    let heads: [&[u8]; 7] = [
        &[],
        &[1],
        &[1, 7, 50],
        &[1, 7, 50, 3, 1, 0],
        &[2],
        &[2, 7, 50],
        &[2, 7, 50, 3, 0, 0],
    ];
    let mut bytes = random.pick(&heads).to_vec();
    let limit = random.pick(&[3, 8, 70, 130, 256]);
    let length = random.below(40);
    bytes.extend((0..length).map(|_| random.below(limit) as u8));
    bytes
}
