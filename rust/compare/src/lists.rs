//! Lists to be written: good ones, each number at and past its limits, two
//! faults at once, and lengths that don't fit each other.

use crate::random::Random;
use crate::records::{half_joins, plain_task};
use crate::tasks::{random_task, task_of};
use crate::writing::Writing;
use ffi::task::{chain, dense, fork, ring, Task};

/// Past every limit of a record; the second one's lower half is in range.
const HUGE: [u64; 3] = [1 << 28, 1 << 32 | 1, u64::MAX];

/// Each number of a few tasks in turn, at its limits and past them.
pub fn limits(random: &mut Random) -> Vec<Writing> {
    let mut writings = Vec::new();
    let short = short(random).into_iter().map(|task| Writing::of(&task));
    for writing in short.chain([63, 64].map(full)) {
        for at in 0..writing.choices() {
            for value in values(at, writing.executions.len()) {
                let mut changed = writing.clone();
                changed.choose(at, value);
                changed.lent = room(random, changed.length());
                writings.push(changed);
            }
        }
    }
    writings
}

/// A few small tasks.
pub fn short(random: &mut Random) -> Vec<Task> {
    let mut tasks: Vec<Task> = [1, 2, 3, 5].map(|count| task_of(random, count, 0)).into();
    tasks.extend([plain_task(dense(12)), half_joins(fork(16))]);
    tasks
}

/// So many nodes with all of them as parents, and every number at its limit.
fn full(count: u64) -> Writing {
    let mut writing = Writing::of(&Task::longest());
    writing.choose(Writing::COUNT_AT, count);
    writing.parents.fill(all(count as usize));
    writing.exact()
}

/// What one of the numbers may be, in range and out of it, with so many nodes.
fn values(at: usize, count: usize) -> Vec<u64> {
    let mut values = match at {
        Writing::EDITION_AT => vec![0, 1, 2, 3, 127, 128],
        Writing::ID_AT => vec![0, 1, 127, 128, 16_383, 16_384, 65_535, 65_536],
        Writing::PERIOD_AT => vec![
            0, 1, 127, 128, 16_383, 16_384, 2_097_151, 2_097_152, 16_777_215, 16_777_216,
        ],
        Writing::COUNT_AT => return vec![0, 1, 2, 63, 64, 65, 66, 127, 128, 300],
        _ if at.is_multiple_of(2) => vec![0, 1, 127, 128, 16_383, 16_384, 65_535, 65_536],
        _ => return sets(count),
    };
    values.extend(HUGE);
    values
}

/// Some inside the nodes; some with one past these, or two, which may be one
/// more than there are nodes; and some all past them.
fn sets(count: usize) -> Vec<u64> {
    let nodes = all(count);
    let next = 1u64.checked_shl(count as u32).unwrap_or(0);
    vec![
        0,
        1,
        1 << (count - 1),
        nodes,
        next,
        nodes & !1 | next,
        nodes | next,
        next | next << 1,
        1 | next | 1 << 63,
        1 << 32 | 1,
        1 << 63,
        !nodes,
        u64::MAX,
    ]
}

/// The set of all nodes.
fn all(count: usize) -> u64 {
    u64::MAX >> (64 - count)
}

/// Mostly enough for a record of that length, often just enough.
pub fn room(random: &mut Random, length: u64) -> u64 {
    let (less, more) = (random.below(length), length + random.below(20));
    random.pick(&[length, length, length + 1, more, 5_000, less, length - 1, 0])
}

/// Every two numbers of a small task out of range together, each with fewer
/// bytes than it takes or enough, and every one with lists that differ.
pub fn two_faults(random: &mut Random) -> Vec<Writing> {
    let mut writings = Vec::new();
    for task in [plain_task(chain(3)), half_joins(chain(3))] {
        let writing = Writing::of(&task);
        for later in 0..writing.choices() {
            for late in faults(later) {
                let mut one = writing.clone();
                one.choose(later, late);
                writings.extend(differing(&one));
                for earlier in 0..later {
                    for early in faults(earlier) {
                        let mut two = one.clone();
                        two.choose(earlier, early);
                        two.lent = room(random, two.length());
                        writings.push(two);
                    }
                }
            }
        }
    }
    writings
}

/// Out of range among three nodes, in either edition.
fn faults(at: usize) -> Vec<u64> {
    match at {
        Writing::EDITION_AT => vec![0, 3],
        Writing::ID_AT => vec![0, 65_536],
        Writing::PERIOD_AT => vec![0, 16_777_216],
        Writing::COUNT_AT => vec![0, 65],
        _ if at.is_multiple_of(2) => vec![65_536, u64::MAX],
        _ => vec![0b1000, 0b1111],
    }
}

/// One list is longer than the other by an entry.
fn differing(writing: &Writing) -> [Writing; 2] {
    let (mut one, mut other) = (writing.clone(), writing.clone());
    one.executions.push(1);
    other.parents.push(0);
    [one, other]
}

/// Lists of many lengths beside each other, more nodes than 16 bits count, and
/// buffers of every length up to the record's and a little more.
pub fn lengths(random: &mut Random) -> Vec<Writing> {
    let mut writings = Vec::new();
    let counts = [0, 1, 2, 3, 32, 63, 64, 65, 66, 128, 300];
    for executions in counts {
        for parents in counts {
            for task in [plain_task(chain(1)), half_joins(chain(1))] {
                let mut writing = Writing::of(&task);
                writing.executions.resize(executions, 1);
                writing.parents.resize(parents, 1);
                writing.lent = room(random, writing.length());
                writings.push(writing);
            }
        }
    }
    let mut many = Writing::of(&plain_task(chain(1)));
    many.choose(Writing::COUNT_AT, 1 << 16 | 1);
    writings.push(many);
    for task in short(random) {
        let writing = Writing::of(&task);
        writings.extend((0..writing.lent + 9).map(|lent| Writing {
            lent,
            ..writing.clone()
        }));
    }
    writings
}

/// As many bytes as the record takes, one more and one less, and none.
fn around(writing: &Writing) -> [Writing; 4] {
    let length = writing.length();
    [length, length + 1, length.max(1) - 1, 0].map(|lent| Writing {
        lent,
        ..writing.clone()
    })
}

/// Every number of nodes, each with all of them as parents, and with joins
/// alone; there also with a step, or with a parent that is none of them, at the
/// last node, and in edition 1.
pub fn counts() -> Vec<Writing> {
    let mut writings = Vec::new();
    for count in 1..=64 {
        let mut joins = Writing::of(&half_joins(ring(count)));
        joins.executions.fill(0);
        let last = joins.choices() - 1;
        let (mut step, mut past) = (joins.clone(), joins.clone());
        step.choose(last - 1, 1);
        past.choose(last, 1u64.checked_shl(count as u32).unwrap_or(1));
        let mut one = joins.clone();
        one.edition = 1;
        for writing in [full(count), joins, step, past, one] {
            writings.extend(around(&writing));
        }
    }
    writings
}

/// Any table; half of them have a number changed, or two, and a few lists that
/// differ.
pub fn any_writing(random: &mut Random) -> Writing {
    let mut writing = Writing::of(&random_task(random, 0));
    let count = writing.executions.len();
    if random.one_in(4) {
        let set = |set: &mut u64| *set = all(count) & random.number();
        writing.parents.iter_mut().for_each(set);
    }
    for _ in 0..random.pick(&[0, 0, 0, 1, 1, 2]) {
        let at = random.index(writing.choices());
        let values = values(at, count);
        let value = values[random.index(values.len())];
        writing.choose(at, value);
    }
    if random.one_in(32) {
        let [one, other] = differing(&writing);
        writing = if random.one_in(2) { one } else { other };
    }
    writing.lent = room(random, writing.length());
    writing
}
