//! Dispatch costs: the ones that stand beside every family of inputs, and
//! calls in which the cost decides.

use crate::case::{Call, Case};
use crate::chance::{any_cost, old_words};
use crate::random::Random;
use crate::records::{half_joins, plain_task};
use crate::tasks::{profile, task_of, Profile, LARGEST_COST, LARGEST_PERIOD};
use ffi::task::{chain, dense, fork, Node, Task};
use reference::Row;

pub const COSTS: [u64; 5] = [0, 1, 255, 256, u64::MAX];
pub const ALLOWED: [u64; 3] = [0, 1, 255];
pub const REFUSED: [u64; 2] = [256, u64::MAX];

/// Numbers of cores.
const COUNTS: [u64; 6] = [0, 1, 16, 64, 65, u64::MAX];

/// Lists of calls, each for an empty board.
pub fn lists(random: &mut Random) -> Vec<Vec<Call>> {
    let mut lists = every_cost();
    lists.extend(edges(random));
    lists.extend(longest());
    lists.extend((0..40).map(|_| together(random)));
    lists
}

/// At each cost the task comes and goes, noted and then admitted.
fn visits(task: &Task, costs: impl IntoIterator<Item = u64>) -> Vec<Call> {
    let mut calls = Vec::new();
    let record = task.record();
    for cost in costs {
        let cores = cost % 64 + 1;
        calls.extend(Call::both(&record, cost));
        calls.extend(Call::asks(cores));
        calls.push(Call::Withdraw(task.id));
        calls.push(Call::admit(&record, cores, cost));
        calls.push(Call::Withdraw(task.id));
    }
    calls
}

/// A few tasks at each cost that is allowed, and at three that are not.
fn every_cost() -> Vec<Vec<Call>> {
    let mut tasks = vec![
        plain_task(chain(64)),
        plain_task(fork(64)),
        plain_task(dense(64)),
        plain_task(vec![vec![]; 64]),
        half_joins(chain(64)),
        half_joins(fork(64)),
    ];
    // Here a cost can make segments light, or the path too long.
    for parents in [chain(3), fork(4), fork(9)] {
        for mut task in [half_joins(parents.clone()), plain_task(parents)] {
            task.period = 1_500;
            tasks.push(task);
        }
    }
    let visits = |task| visits(task, 0..=LARGEST_COST + 3);
    tasks.iter().map(visits).collect()
}

/// Each task's period is as long as its path at some cost: the path fits at
/// that one and not at the next. A loop has no path.
fn edges(random: &mut Random) -> Vec<Vec<Call>> {
    let mut lists = Vec::new();
    for cost in 0..=LARGEST_COST {
        for most in [2, 8, 64] {
            let count = random.between(1, most);
            let mut task = task_of(random, count, cost);
            if let Some(Profile { path, .. }) = profile(&task, cost) {
                task.period = path;
            }
            lists.push(visits(&task, [cost + 1, cost, cost.max(1) - 1]));
        }
    }
    lists
}

/// Steps as long as they can be, in periods around the path, around the turn of
/// one thread from light to heavy, and in the longest.
fn longest() -> Vec<Vec<Call>> {
    let mut lists = Vec::new();
    for mut task in longest_tasks() {
        for cost in ALLOWED {
            let Profile { work, path, .. } = profile(&task, cost).expect("there is no loop");
            let turn = (work + path) / 2;
            for period in [path - 1, path, path + 1, turn, turn + 1, LARGEST_PERIOD] {
                task.period = period;
                lists.push(visits(&task, COSTS));
            }
        }
    }
    lists
}

/// 64 steps of each shape, the same with joins, and with all but one step a
/// unit shorter: side by side these have the greatest Q.
fn longest_tasks() -> Vec<Task> {
    let mut tasks = Vec::new();
    for parents in [vec![vec![]; 64], chain(64), fork(64), dense(64)] {
        let node = |parents| Node {
            execution: 65_535,
            parents,
        };
        let task = Task {
            nodes: parents.into_iter().map(node).collect(),
            ..Task::longest()
        };
        let mut uneven = task.clone();
        for node in &mut uneven.nodes[1..] {
            node.execution -= 1;
        }
        tasks.extend([task.clone().half_joins(1), uneven, task]);
    }
    tasks
}

/// A task under sixteen ids, each at a cost of its own, and every verdict.
fn together(random: &mut Random) -> Vec<Call> {
    let mut task = task_of(random, 3, LARGEST_COST);
    task.period = (task.period * random.between(1, 100)).min(LARGEST_PERIOD);
    let mut calls = Vec::new();
    for id in 1..=16 {
        task.id = id;
        calls.push(Call::Note(task.record(), any_cost(random)));
    }
    calls.extend((1..=64).flat_map(Call::asks));
    calls
}

/// A record for each of 1 to 11, for 18 and for 21, and two that are planned.
pub const RECORDS: [&[u8]; 15] = [
    &[],
    &[0x80, 0x80, 0x80, 0x80],
    &[0],
    &[1, 0],
    &[1, 7, 0],
    &[1, 7, 9, 0],
    &[1, 7, 9, 1, 0],
    &[1, 7, 9, 1, 5, 2],
    &[1, 7, 9, 1, 5, 0, 0],
    &[1, 7, 9, 1, 5, 1, 0],
    &[1, 7, 4, 1, 5, 0],
    &[0x81, 0],
    &[2, 7, 9, 1, 0, 0],
    &[1, 7, 0x80, 4, 1, 5, 0],
    &[1, 99, 0x80, 4, 1, 5, 0],
];

/// 26 and 15 beside each of the other refusals, and beside many at once.
pub fn beside_refusals(random: &mut Random) -> Vec<Case> {
    let mut cases = Vec::new();
    for length in [0, 386, 387] {
        for board in boards() {
            for record in RECORDS {
                let both = |cost| Call::both(record, cost);
                let mut lists = vec![COSTS.into_iter().flat_map(both).collect()];
                for cost in COSTS {
                    lists.extend(COUNTS.map(|cores| vec![Call::admit(record, cores, cost)]));
                }
                cases.extend(lists.into_iter().map(|calls| Case {
                    words: old_words(random, length),
                    board: board.clone(),
                    calls,
                }));
            }
        }
    }
    cases
}

/// Empty, full, with one row free, with an id twice, and of wrong lengths. A few
/// cores are too few for those with all or all but one.
fn boards() -> [Vec<Row>; 7] {
    let row = |id| Row {
        id,
        nodes: 1,
        sum: 500_000,
        largest: 500_000,
        longest: 5,
        shortest: 50,
        over: 5,
    };
    let rows: Vec<Row> = (1..=17).map(row).collect();
    let twice = [&rows[..15], &rows[..1]].concat();
    let full = rows[..16].to_vec();
    let short = rows[..15].to_vec();
    let free = vec![Row::default(); 16];
    let busy = [&rows[..15], &free[..1]].concat();
    [free, full, busy, twice, short, rows, vec![]]
}
