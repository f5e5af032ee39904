//! The records whose answers are stored, of edition 1 but for damaged ones, and
//! the same in every run. They are drawn here and not by the other generators,
//! which change with what is compared.

use crate::random::Random;
use crate::tasks::LARGEST_PERIOD;
use ffi::task::{backward, chain, dense, encoded, fork, number, Node, Task};
use std::collections::BTreeSet;

/// A record that begins with edition 2 is none of these.
pub fn records() -> Vec<Vec<u8>> {
    let mut random = Random::seeded(1);
    let mut records = vec![vec![], Task::longest().record(), vec![0; 100]];
    for numbers in [LISTING.to_vec(), FOUR.to_vec()] {
        records.extend(cuts(&numbers));
        records.extend(limits(&numbers));
    }
    records.push(task(&mut random, dense(64)).record());
    for count in [64; 24].into_iter().chain((1..=12).cycle().take(760)) {
        let parents = graph(&mut random, count);
        records.push(task(&mut random, parents).record());
    }
    for count in (1..=5).cycle().take(1_000) {
        let parents = graph(&mut random, count);
        let task = task(&mut random, parents);
        records.push(damaged(&mut random, &task.numbers()));
    }
    let mut met = BTreeSet::new();
    records.retain(|record| record.first() != Some(&2) && met.insert(record.clone()));
    records
}

/// Document 01's listing, and its record of four nodes.
const LISTING: [u64; 11] = [1, 3, 6, 3, 3, 0, 1, 0, 1, 1, 1];
const FOUR: [u64; 15] = [1, 9, 4, 4, 2, 0, 1, 1, 0, 1, 1, 0, 1, 1, 0];

fn cuts(numbers: &[u64]) -> Vec<Vec<u8>> {
    let lengths = 0..=numbers.len();
    lengths.map(|length| encoded(&numbers[..length])).collect()
}

/// Each number around the limits of every field.
fn limits(numbers: &[u64]) -> Vec<Vec<u8>> {
    let mut records = Vec::new();
    for at in 0..numbers.len() {
        for limit in [1, 3, 5, 65, 128, 65_536, LARGEST_PERIOD + 1] {
            for value in limit - 1..=limit {
                let mut changed = numbers.to_vec();
                changed[at] = value;
                records.push(encoded(&changed));
            }
        }
    }
    records
}

/// Edges go up, but in one of twelve for one that goes down or to the node
/// itself; half of the graphs are then listed backwards.
fn graph(random: &mut Random, count: u64) -> Vec<Vec<u64>> {
    let one_in = random.between(1, 12);
    let mut parents = match random.below(6) {
        0 => chain(count),
        1 => fork(count),
        2 if count <= 12 => dense(count),
        3 => vec![vec![]; count as usize],
        _ => {
            let mut parents = |node| (0..node).filter(|_| random.one_in(one_in * 2)).collect();
            (0..count).map(&mut parents).collect()
        }
    };
    if random.one_in(12) {
        let child = random.below(count);
        parents[child as usize].push(random.between(child, count - 1));
    }
    match random.one_in(2) {
        true => backward(parents),
        false => parents,
    }
}

fn task(random: &mut Random, parents: Vec<Vec<u64>>) -> Task {
    let most = random.pick(&[1, 3, 9, 100, 65_535]);
    let node = |parents| Node {
        execution: random.between(1, most),
        parents,
    };
    let nodes: Vec<Node> = parents.into_iter().map(node).collect();
    Task {
        edition: 1,
        id: random.pick(&[1, 7, 300, 65_535]),
        period: period(random, &nodes),
        nodes,
    }
}

/// Around the path, and around the edge of heavy for one to four threads.
fn period(random: &mut Random, nodes: &[Node]) -> u64 {
    let work: u64 = nodes.iter().map(|node| node.execution).sum();
    let path = path(nodes);
    let edge = (work / random.between(1, 4) + path) / 2;
    let edge = random.between(edge.max(1), edge + 1).max(path);
    let any = random.between(path, path + work);
    let around = [path - 1, path, path + 1, 2 * path, LARGEST_PERIOD];
    let around = random.pick(&around).max(1);
    random.pick(&[around, edge, any])
}

/// The latest finish after as many rounds as there are nodes; on a loop it is
/// no path, and no matter.
fn path(nodes: &[Node]) -> u64 {
    let mut finishes = vec![0; nodes.len()];
    for _ in nodes {
        for (at, node) in nodes.iter().enumerate() {
            let parents = node.parents.iter().map(|&parent| finishes[parent as usize]);
            finishes[at] = parents.max().unwrap_or(0) + node.execution;
        }
    }
    finishes
        .into_iter()
        .fold(1, u64::max)
        .min(LARGEST_PERIOD / 2)
}

/// With one number out of range or in a bad form, with a byte changed, cut, or
/// with bytes after it.
fn damaged(random: &mut Random, numbers: &[u64]) -> Vec<u8> {
    let at = random.index(numbers.len());
    let mut parts: Vec<Vec<u8>> = numbers.iter().copied().map(number).collect();
    let bytes = parts.concat().len();
    let low = numbers[at] as u8 | 0x80;
    match random.below(8) {
        0 => parts[at] = number(random.pick(&[0, 65, 65_536, 1 << 24, 1 << 27])),
        1 => parts[at] = vec![low, 0],
        2 => parts[at] = vec![low, 0x80, 0],
        3 => parts[at] = vec![low, 0x80, 0x80, 0x80, 0],
        4 => parts.push(vec![0; random.between(1, 3) as usize]),
        5 => parts.truncate(at),
        6 => parts[at].push(random.below(256) as u8),
        _ => parts[at][0] ^= 1 << random.below(8),
    }
    let mut record = parts.concat();
    if random.one_in(6) {
        record.truncate(random.index(bytes + 1));
    }
    record
}
