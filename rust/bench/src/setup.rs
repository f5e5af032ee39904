//! The tasks, boards, files and plans that are measured.

use ffi::task::{chain, dense, fork, number, ring, Node, Task};
use reference::{Row, PLAN_WORDS};
use std::iter;
use std::ops::Range;

/// Starts on a cache line, so that the times don't depend on where it lies.
#[repr(align(64))]
#[derive(Clone, Copy)]
pub struct Aligned<T>(pub T);

/// A shape's name and the parents of its nodes.
pub type Shape = (&'static str, fn(u64) -> Vec<Vec<u64>>);

pub const CHAIN: Shape = ("chain", chain);
pub const LOOSE: Shape = ("loose", loose);

pub const SHAPES: [Shape; 5] = [
    CHAIN,
    ("backward chain", backward),
    ("fork", fork),
    ("dense", dense),
    LOOSE,
];

/// Not to be planned: each node waits for the one before, node 0 for the last.
pub const RING: Shape = ("ring", ring);

/// A chain whose last step is node 0: a search for the next step that goes up
/// the node numbers has the longest way.
fn backward(count: u64) -> Vec<Vec<u64>> {
    (0..count)
        .map(|node| (node + 1..count.min(node + 2)).collect())
        .collect()
}

/// No node waits for another.
fn loose(count: u64) -> Vec<Vec<u64>> {
    vec![vec![]; count as usize]
}

/// A task of that shape.
pub fn record(shape: Shape, count: u64, id: u64) -> Vec<u8> {
    numbered(shape, count, id).record()
}

/// The same with so long a period that 64 cores bear one of each shape beside
/// ten others, even at the largest cost.
pub fn roomy_record(shape: Shape, count: u64, id: u64) -> Vec<u8> {
    let mut task = numbered(shape, count, id);
    task.period = 1_000_000;
    task.record()
}

/// A chain in edition 2, every other node a join: each finish wakes a join,
/// and this the next step.
pub fn half_joins(count: u64, id: u64) -> Vec<u8> {
    let task = numbered(CHAIN, count, id);
    task.half_joins(1).record()
}

/// Executions differ, so that the cuts do, and the period is roomy enough for
/// every shape.
fn numbered(shape: Shape, count: u64, id: u64) -> Task {
    let executions = (0..).map(|at| 100 + at * 7_919 % 1_000);
    task(shape.1(count), executions, id)
}

fn task(parents: Vec<Vec<u64>>, executions: impl Iterator<Item = u64>, id: u64) -> Task {
    let node = |(parents, execution)| Node { execution, parents };
    Task {
        edition: 1,
        id,
        period: 100_000,
        nodes: parents.into_iter().zip(executions).map(node).collect(),
    }
}

/// The bytes of the longest record.
pub const LONGEST: usize = 4_361;

/// The two lists of a task of 64 nodes.
pub fn lists(task: &Task) -> [Aligned<[u64; 64]>; 2] {
    let (executions, parents) = task.lists();
    [executions, parents].map(|list| Aligned(list.try_into().expect("64 nodes")))
}

/// The bytes of the longest plan record.
pub const LONGEST_PLAN: usize = 3_476;

/// The words of the longest plan record, and the largest id: 64 segments and 64
/// nodes, and each number but the counts takes nine groups.
pub fn longest_plan() -> (Aligned<[u64; PLAN_WORDS]>, u64) {
    let largest = (1 << 63) - 1;
    let mut words = [largest; PLAN_WORDS];
    words[1..3].fill(64);
    (Aligned(words), largest)
}

/// The plan record of a task, or no bytes where it is not planned.
pub fn own_plan(record: &[u8], cost: u64) -> Vec<u8> {
    let mut words = [0; PLAN_WORDS];
    let id = reference::read(record).map_or(0, |table| table.id);
    let mut bytes = vec![0; LONGEST_PLAN];
    let planned = reference::plan(record, &mut words, cost);
    let written = match planned.refusal {
        0 => reference::write_plan(&words, &mut bytes, id).value,
        _ => 0,
    };
    bytes.truncate(written as usize);
    bytes
}

/// The largest cost; no path gets too long by it.
pub const COST: u64 = 255;

/// For so many cores tasks are admitted.
pub const CORES: u64 = 64;

/// So many records stand for a case in which no branch can be learnt.
pub const DIFFERENT: usize = 512;

/// Tasks of 64 nodes of one shape that differ in their executions.
pub fn different(shape: Shape) -> Vec<Vec<u8>> {
    let mut chance = Chance(1);
    let one = |_| task(shape.1(64), chance.executions(), 1).record();
    (0..DIFFERENT).map(one).collect()
}

/// Tasks of so many nodes that differ in everything: each node waits for up to
/// three others, whatever their numbers.
pub fn scattered(count: u64) -> impl Iterator<Item = Vec<u8>> {
    let mut chance = Chance(2);
    iter::repeat_with(move || task(chance.parents(count), chance.executions(), 1).record())
}

/// The bytes of the largest file.
const LARGEST_FILE: usize = 1_048_576;

/// A file of such tasks, with no room for another, and the part that each occupies.
pub struct Building {
    pub file: Vec<u8>,
    pub parts: Vec<Range<usize>>,
}

impl Building {
    pub fn of(count: u64) -> Building {
        let (mut file, mut parts) = (Vec::new(), Vec::new());
        for record in scattered(count) {
            let length = number(record.len() as u64);
            let first = file.len() + length.len();
            let part = first..first + record.len();
            if part.end > LARGEST_FILE {
                break;
            }
            file.extend(length);
            file.extend(record);
            parts.push(part);
        }
        Building { file, parts }
    }
}

/// Numbers without a pattern, the same in every run.
struct Chance(u64);

impl Chance {
    fn below(&mut self, limit: u64) -> u64 {
        self.0 ^= self.0 << 13;
        self.0 ^= self.0 >> 7;
        self.0 ^= self.0 << 17;
        self.0 % limit
    }

    fn executions(&mut self) -> impl Iterator<Item = u64> + '_ {
        iter::repeat_with(|| 100 + self.below(1_000))
    }

    /// Up to three parents for each node, among those before it in an order
    /// of its own.
    fn parents(&mut self, count: u64) -> Vec<Vec<u64>> {
        let mut order: Vec<u64> = (0..count).collect();
        let mut parents = vec![vec![]; count as usize];
        for at in 0..count as usize {
            order.swap(at, at + self.below(count - at as u64) as usize);
            let wanted = self.below(4).min(at as u64);
            let mut chosen: Vec<u64> = (0..wanted)
                .map(|_| order[self.below(at as u64) as usize])
                .collect();
            chosen.sort_unstable();
            chosen.dedup();
            parents[order[at] as usize] = chosen;
        }
        parents
    }
}

/// A board with the ids 1 to that number standing in its first rows. Deadlines
/// are about 10,000, each over a Q of its own.
pub fn board(standing: u64) -> [Row; 16] {
    let row = |at| Row {
        id: at + 1,
        nodes: 16,
        sum: 900_000,
        largest: 90_000,
        longest: 900,
        shortest: 160_000_000 + 7_919 * at,
        over: 16_000 + at,
    };
    std::array::from_fn(|at| match (at as u64) < standing {
        true => row(at as u64),
        false => Row::default(),
    })
}
