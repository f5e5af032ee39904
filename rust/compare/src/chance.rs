//! Buffers, records, costs, core counts and calls by chance.

use crate::boards::{random_board, SPOILS};
use crate::case::Call;
use crate::fits::roomy_task;
use crate::random::Random;
use crate::records::{misspelt, random_bytes, spoilt};
use crate::tasks::{random_task, LARGEST_COST};
use ffi::task::Task;
use reference::Row;

/// Old content that no plan would write.
pub fn old_words(random: &mut Random, length: usize) -> Vec<u64> {
    let first = random.number() | 1 << 63;
    (0..length as u64).map(|at| first ^ at).collect()
}

/// Mostly allowed, so that the rules after 26 are met.
pub fn any_cost(random: &mut Random) -> u64 {
    let any = random.between(0, LARGEST_COST);
    match random.one_in(12) {
        true => random.pick(&[256, u64::MAX, 256 + any, (any + 1) << 32]),
        false => random.pick(&[0, 0, 0, 1, 255, any]),
    }
}

/// Mostly allowed, so that the rules after 15 are met.
pub fn any_cores(random: &mut Random) -> u64 {
    let any = random.between(1, 64);
    match random.one_in(12) {
        true => random.pick(&[0, 65, u64::MAX, any << 32 | any]),
        false => random.pick(&[1, 2, any % 8 + 1, any, any, 64]),
    }
}

/// A task's period is for that cost.
pub fn any_record(random: &mut Random, cost: u64) -> Vec<u8> {
    let task = random_task(random, cost);
    sent(random, &task)
}

/// Half of the records don't arrive as they were.
fn sent(random: &mut Random, task: &Task) -> Vec<u8> {
    match random.below(6) {
        0 => random_bytes(random),
        1 => spoilt(random, task.record()),
        2 => misspelt(random, &task.numbers()),
        _ => task.record(),
    }
}

pub fn any_board(random: &mut Random) -> Vec<Row> {
    let mut board = random_board(random);
    if random.one_in(2) {
        let at = random.index(16);
        random.pick(&SPOILS)(&mut board[at]);
    }
    board
}

/// A call on a board with ids 1 to 24, often for that many cores; the record's
/// id is brought in range.
pub fn any_call(random: &mut Random, cores: u64) -> Call {
    let any = random.number();
    let id = random.between(0, 25);
    let cost = any_cost(random);
    match random.below(8) {
        0 | 1 => Call::Withdraw(random.pick(&[id, id, id, id, id, 65_535, 65_536, any])),
        2 | 3 => {
            let cores = random.between(0, 66);
            let cores = random.pick(&[cores, cores, cores, cores, any]);
            random.pick(&Call::ASKS)(cores)
        }
        4 => Call::Plan(any_record(random, cost), cost),
        _ => {
            let any = any_cores(random);
            let mut task = match random.one_in(6) {
                true => random_task(random, cost),
                false => roomy_task(random, cores, cost),
            };
            task.id = id.max(1);
            let record = match random.one_in(4) {
                true => sent(random, &task),
                false => task.record(),
            };
            let cores = random.pick(&[cores, cores, any]);
            put(random, &record, cores, cost)
        }
    }
}

/// Noted, or admitted for that many cores.
pub fn put(random: &mut Random, record: &[u8], cores: u64, cost: u64) -> Call {
    match random.one_in(3) {
        true => Call::Note(record.to_vec(), cost),
        false => Call::admit(record, cores, cost),
    }
}

/// Every call that looks at the board, in any order; one notes and one admits
/// at that cost.
pub fn board_calls(random: &mut Random, cost: u64) -> Vec<Call> {
    let cores = random.between(1, 64);
    let mut calls = vec![
        Call::Ask(random.between(0, 65)),
        Call::AskToEnd(random.between(0, 65)),
        Call::Withdraw(random.between(0, 25)),
        Call::Note(any_record(random, cost), cost),
        Call::admit(&any_record(random, cost), any_cores(random), cost),
        any_call(random, cores),
    ];
    random.shuffle(&mut calls);
    calls
}
