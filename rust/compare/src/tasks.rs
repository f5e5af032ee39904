//! Random tasks, and periods that sit on the edge of a rule, at a cost.

use crate::joins::sprinkle;
use crate::random::Random;
use ffi::task::{chain, dense, fork, Node, Task};
use reference::PLAN_WORDS;

pub const LARGEST_PERIOD: u64 = 16_777_215;
pub const LARGEST_COST: u64 = 255;

/// Any task: edition, shape, numbering, executions and period all by chance,
/// the period for that cost.
pub fn random_task(random: &mut Random, cost: u64) -> Task {
    let most = random.pick(&[4, 16, 64]);
    let count = if random.one_in(16) {
        64
    } else {
        random.between(1, most)
    };
    task_of(random, count, cost)
}

pub fn task_of(random: &mut Random, count: u64, cost: u64) -> Task {
    let mut parents = graph(random, count);
    if random.one_in(8) {
        close_a_loop(random, &mut parents);
    }
    let parents = renumbered(random, parents);
    let executions = executions(random, count);
    let node = |(execution, parents)| Node { execution, parents };
    let mut task = Task {
        edition: 1,
        id: random.between(1, 65_535),
        period: LARGEST_PERIOD,
        nodes: executions.into_iter().zip(parents).map(node).collect(),
    };
    if random.one_in(2) {
        sprinkle(random, &mut task);
    }
    with_period(random, task, cost)
}

/// A graph whose edges all go up.
fn graph(random: &mut Random, count: u64) -> Vec<Vec<u64>> {
    match random.below(6) {
        0 => chain(count),
        1 => fork(count),
        2 => dense(count),
        3 => layers(random, count),
        4 => vec![vec![]; count as usize],
        _ => scattered(random, count),
    }
}

/// Layers of one width; each node has some of the layer before as parents.
fn layers(random: &mut Random, count: u64) -> Vec<Vec<u64>> {
    let width = random.between(1, count);
    let in_four = random.between(1, 4);
    let mut parents = |node: u64| {
        let layer = node / width * width;
        let before = layer.saturating_sub(width)..layer;
        before.filter(|_| random.below(4) < in_four).collect()
    };
    (0..count).map(&mut parents).collect()
}

fn scattered(random: &mut Random, count: u64) -> Vec<Vec<u64>> {
    let one_in = random.pick(&[2, 4, 10, 30]);
    let mut parents = |node| (0..node).filter(|_| random.one_in(one_in)).collect();
    (0..count).map(&mut parents).collect()
}

/// One edge that goes down or to the node itself; mostly it closes a loop.
fn close_a_loop(random: &mut Random, parents: &mut [Vec<u64>]) {
    let child = random.index(parents.len());
    let parent = random.between(child as u64, parents.len() as u64 - 1);
    parents[child].push(parent);
}

/// The same graph with its nodes listed in order, backwards or shuffled.
pub fn renumbered(random: &mut Random, parents: Vec<Vec<u64>>) -> Vec<Vec<u64>> {
    let mut numbers: Vec<u64> = (0..parents.len() as u64).collect();
    match random.below(4) {
        0 => (),
        1 => numbers.reverse(),
        _ => random.shuffle(&mut numbers),
    }
    let mut listed = vec![Vec::new(); parents.len()];
    for (node, parents) in parents.into_iter().enumerate() {
        let mut renamed: Vec<u64> = parents.iter().map(|&p| numbers[p as usize]).collect();
        renamed.sort_unstable();
        renamed.dedup();
        listed[numbers[node] as usize] = renamed;
    }
    listed
}

pub fn executions(random: &mut Random, count: u64) -> Vec<u64> {
    let most = random.pick(&[1, 2, 5, 100, 1_000, 65_535]);
    let all_most = random.one_in(4);
    let mut execution = |_| {
        if all_most {
            most
        } else {
            random.between(1, most)
        }
    };
    (0..count).map(&mut execution).collect()
}

/// Work, path, and the threads that occur.
pub struct Profile {
    pub work: u64,
    pub path: u64,
    threads: Vec<u64>,
}

/// From the plan at the longest period, where no path is too long. A cost that
/// is refused counts as the largest.
pub fn profile(task: &Task, cost: u64) -> Option<Profile> {
    let mut roomy = task.clone();
    roomy.period = LARGEST_PERIOD;
    let mut words = [0; PLAN_WORDS];
    if reference::plan(&roomy.record(), &mut words, cost.min(LARGEST_COST)).refusal != 0 {
        return None;
    }
    let segments = words[3..].chunks(3).take(words[1] as usize);
    let work = |segment: &[u64]| segment[0] * segment[1];
    Some(Profile {
        work: segments.clone().map(work).sum(),
        path: segments.clone().map(|segment| segment[1]).sum(),
        threads: segments.map(|segment| segment[0]).collect(),
    })
}

/// The task with a period by chance; where it has to, the search for one
/// changes executions.
pub fn with_period(random: &mut Random, mut task: Task, cost: u64) -> Task {
    task.period = period(random, &mut task, cost);
    task
}

fn period(random: &mut Random, task: &mut Task, cost: u64) -> u64 {
    let Some(Profile { work, path, .. }) = profile(task, cost) else {
        return random.between(1, 1_000);
    };
    match random.below(8) {
        0 => path,
        1 => (path - 1).max(1),
        2 => path + 1,
        3 => random.between(path, path + work),
        4 => random.between(path, 2 * path),
        5 => random.pick(&[1, LARGEST_PERIOD, LARGEST_PERIOD - 1]),
        _ => tie(random, task, cost).map_or(path, |at| random.between(at.max(2) - 1, at + 1)),
    }
}

/// A period with m x (2T - P) = C for the threads m of some segment.
fn tie(random: &mut Random, task: &mut Task, cost: u64) -> Option<u64> {
    for _ in 0..20 {
        let Profile {
            work,
            path,
            threads,
        } = profile(task, cost)?;
        let ties = |&&m: &&u64| {
            work.is_multiple_of(m) && work / m >= path && (work / m + path).is_multiple_of(2)
        };
        let found: Vec<u64> = threads.iter().filter(ties).copied().collect();
        if !found.is_empty() {
            return Some((work / random.pick(&found) + path) / 2);
        }
        let node = random.index(task.nodes.len());
        let execution = &mut task.nodes[node].execution;
        if *execution > 0 {
            *execution = random.between(1, 9);
        }
    }
    None
}
