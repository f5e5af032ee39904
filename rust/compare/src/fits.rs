//! Tasks and boards for admitting: what just fits on a number of cores, what
//! just doesn't, and runs that begin with an empty board.

use crate::boards::{free_board, loaded_board, MILLION};
use crate::case::Call;
use crate::chance::{any_cores, any_cost};
use crate::random::Random;
use crate::tasks::{profile, task_of, LARGEST_COST, LARGEST_PERIOD};
use ffi::task::Task;
use reference::{Row, PLAN_WORDS};

/// A task of which a few or many are as much as that number of cores can bear.
pub fn roomy_task(random: &mut Random, cores: u64, cost: u64) -> Task {
    let most = random.pick(&[4, 8, 24]);
    let count = random.between(1, most);
    let mut task = task_of(random, count, cost);
    if let Some(profile) = profile(&task, cost) {
        // In a period no shorter than the work, no density is above work over
        // period.
        let least = profile.work * count.max(cores) / cores;
        let most = random.pick(&[4, 10, 40]);
        let halves = random.between(2, most);
        task.period = (least * halves / 2).clamp(profile.path, LARGEST_PERIOD);
    }
    task
}

/// A board and a task for it, often such that S + (m - 1) x M with the task is
/// m x 1,000,000, or one more or less; sometimes it was a no before.
pub fn tight_fit(random: &mut Random, cores: u64, cost: u64) -> (Vec<Row>, Task) {
    for _ in 0..100 {
        let mut task = roomy_task(random, cores, cost);
        if let Some(board) = row_of(&task, cost).and_then(|row| board_for(random, cores, &row)) {
            // The board has ids of 1 to 16.
            let any = random.between(1, 16);
            task.id = random.pick(&[17, 99, 65_535, any]);
            return (board, task);
        }
    }
    unreachable!("a task that fits is found soon")
}

/// What noting puts on an empty board. A cost that is refused counts as the
/// largest.
fn row_of(task: &Task, cost: u64) -> Option<Row> {
    let mut board = free_board();
    let cost = cost.min(LARGEST_COST);
    let answer = reference::note(&task.record(), &mut [0; PLAN_WORDS], &mut board, cost);
    (answer.refusal == 0).then_some(board[0])
}

/// Its largest density may be below the task's, the same or above it.
fn board_for(random: &mut Random, cores: u64, task: &Row) -> Option<Vec<Row>> {
    let below = random.between(1, task.largest);
    let above = random.between(task.largest.min(MILLION), MILLION);
    let largest = random.pick(&[below, task.largest, above]);
    let taken = task.sum + (cores - 1) * largest.max(task.largest);
    let room = (cores * MILLION).checked_sub(taken)?;
    let (less, more) = (room.max(1) - 1, room + 1);
    let no_before = more + task.sum;
    let sum = random.pick(&[less, room, room, room, more, more, no_before]);
    let rows = random.pick(&[15, 15, 15, 16]);
    match sum {
        0 => Some(free_board()),
        _ if (largest..=rows * 64 * largest).contains(&sum) => {
            Some(loaded_board(random, rows, sum, largest))
        }
        _ => None,
    }
}

/// A call of a run in which all admissions are for that many cores and nothing
/// is noted.
pub fn guarded_call(random: &mut Random, cores: u64) -> Call {
    let id = random.between(0, 25);
    let cost = any_cost(random);
    match random.below(8) {
        0 | 1 => Call::Withdraw(id),
        2 => random.pick(&Call::ASKS)(any_cores(random)),
        3 => Call::Plan(roomy_task(random, cores, cost).record(), cost),
        _ => {
            let mut task = roomy_task(random, cores, cost);
            task.id = id.max(1);
            Call::admit(&task.record(), cores, cost)
        }
    }
}
