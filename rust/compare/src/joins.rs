//! Tasks of edition 2, in which nodes may run nothing.

use crate::random::Random;
use crate::tasks::{executions, with_period};
use ffi::task::{backward, chain, dense, fork, ring, Node, Task};

/// Puts few or many joins into a task, mostly with a step left. One in 32
/// keeps edition 1, where the first join is refused.
pub fn sprinkle(random: &mut Random, task: &mut Task) {
    task.edition = if random.one_in(32) { 1 } else { 2 };
    let in_eight = random.pick(&[1, 2, 4, 6]);
    let left = (!random.one_in(8)).then(|| random.index(task.nodes.len()));
    for (at, node) in task.nodes.iter_mut().enumerate() {
        if random.below(8) < in_eight && Some(at) != left {
            node.execution = 0;
        }
    }
}

/// Their periods are for that cost.
pub fn tasks(random: &mut Random, cost: u64) -> Vec<Task> {
    let mut tasks = runs_of_joins(random, cost);
    tasks.extend(meetings(random, cost));
    let last_first: Vec<Task> = tasks.iter().map(last_first).collect();
    tasks.extend(last_first);
    for count in 1..=64 {
        let step = random.below(count);
        tasks.extend([
            task(random, cost, chain(count), &|_| true),
            task(random, cost, ring(count), &|_| true),
            task(random, cost, ring(count), &|node| node != step),
        ]);
    }
    tasks
}

/// In 64 nodes of each shape, all joins but one, one join, and joins up to a
/// node or from there on.
fn runs_of_joins(random: &mut Random, cost: u64) -> Vec<Task> {
    let mut tasks = Vec::new();
    for parents in [chain(64), fork(64), dense(64), vec![vec![]; 64]] {
        for at in 0..64 {
            tasks.extend([
                task(random, cost, parents.clone(), &|node| node != at),
                task(random, cost, parents.clone(), &|node| node == at),
                task(random, cost, parents.clone(), &|node| node < at),
                task(random, cost, parents.clone(), &|node| node > at),
            ]);
        }
    }
    tasks
}

/// Branches that part at a join and meet at the next, once and again; and the
/// same in edition 1, with a unit for each join.
fn meetings(random: &mut Random, cost: u64) -> Vec<Task> {
    let mut tasks = Vec::new();
    for width in 1..=62 {
        for meetings in 1..=63 / (width + 1) {
            let is_join = |node| node % (width + 1) == 0;
            let joined = task(random, cost, meeting(width, meetings), &is_join);
            let mut unit = joined.clone();
            unit.edition = 1;
            let executions = unit.nodes.iter_mut().map(|node| &mut node.execution);
            executions.for_each(|execution| *execution = (*execution).max(1));
            tasks.extend([joined, unit]);
        }
    }
    tasks
}

/// Node 0, so many branches that wait for it, a node that waits for these, and
/// so on.
fn meeting(width: u64, meetings: u64) -> Vec<Vec<u64>> {
    let parents = |node: u64| match node % (width + 1) {
        0 => (node.saturating_sub(width)..node).collect(),
        branch => vec![node - branch],
    };
    (0..=meetings * (width + 1)).map(parents).collect()
}

/// A task of edition 2 with these joins.
fn task(
    random: &mut Random,
    cost: u64,
    parents: Vec<Vec<u64>>,
    is_join: &dyn Fn(u64) -> bool,
) -> Task {
    let executions = executions(random, parents.len() as u64);
    let numbered = (0..).zip(executions).zip(parents);
    let node = |((node, execution), parents)| Node {
        execution: if is_join(node) { 0 } else { execution },
        parents,
    };
    let task = Task {
        edition: 2,
        id: random.between(1, 65_535),
        period: 1,
        nodes: numbered.map(node).collect(),
    };
    with_period(random, task, cost)
}

/// The same task with its last node listed first.
fn last_first(task: &Task) -> Task {
    let executions = task.nodes.iter().rev().map(|node| node.execution);
    let parents = task.nodes.iter().map(|node| node.parents.clone());
    let listed = executions.zip(backward(parents.collect()));
    let node = |(execution, parents)| Node { execution, parents };
    Task {
        nodes: listed.map(node).collect(),
        ..*task
    }
}
