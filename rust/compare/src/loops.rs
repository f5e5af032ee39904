//! Drawings with loops, as the parents of each node.

use crate::random::Random;
use crate::tasks::renumbered;

type Drawing = Vec<Vec<u64>>;

pub fn drawings(random: &mut Random) -> Vec<Drawing> {
    let mut drawings = rings();
    for count in 1..=64 {
        drawings.extend([tangle(count), others(count)]);
        drawings.extend((0..8).map(|_| two_closed(random, count, 0)));
        drawings.extend((0..8).map(|_| two_rounds(random)));
        let one_in = [2, 5, count, 2 * count, 4 * count];
        drawings.extend(one_in.map(|one_in| scattered(random, count, one_in)));
    }
    drawings
}

/// A ring of every length at every place among 64 nodes, the others loose.
fn rings() -> Vec<Drawing> {
    let mut rings = Vec::new();
    for length in 1..=64 {
        let ring = |first| {
            let mut parents = loose(64);
            close(&mut parents, first, length);
            parents
        };
        rings.extend((0..=64 - length).map(ring));
    }
    rings
}

fn loose(count: u64) -> Drawing {
    vec![vec![]; count as usize]
}

/// Each of these nodes waits for the one before it, the first for the last.
fn close(parents: &mut Drawing, first: u64, length: u64) {
    for node in 0..length {
        let before = (node + length - 1) % length;
        parents[(first + node) as usize].push(first + before);
    }
}

/// Each node waits for every node.
fn tangle(count: u64) -> Drawing {
    vec![(0..count).collect(); count as usize]
}

/// Each node waits for every other node.
fn others(count: u64) -> Drawing {
    let others = |node| (0..count).filter(|&other| other != node).collect();
    (0..count).map(others).collect()
}

fn two_rounds(random: &mut Random) -> Drawing {
    let one = random.between(1, 63);
    let other = random.between(1, 64 - one);
    two_closed(random, one, other)
}

/// Two rounds, the second of which may be none, up to three edges more among
/// their nodes, and other nodes that hang on or lead in.
fn two_closed(random: &mut Random, one: u64, other: u64) -> Drawing {
    let closed = one + other;
    let count = random.between(closed, 64);
    let mut parents = loose(count);
    close(&mut parents, 0, one);
    close(&mut parents, one, other);
    for _ in 0..random.below(4) {
        parents[random.index(closed as usize)].push(random.below(closed));
    }
    hang(random, &mut parents, closed);
    renumbered(random, parents)
}

/// Each node from there on waits for one before it, or one of these for it.
fn hang(random: &mut Random, parents: &mut Drawing, first: u64) {
    for node in first..parents.len() as u64 {
        let before = random.below(node);
        let [child, parent] = random.pick(&[[node, before], [before, node]]);
        parents[child as usize].push(parent);
    }
}

/// Any node waits for any, one in so many.
fn scattered(random: &mut Random, count: u64, one_in: u64) -> Drawing {
    let mut parents = |_| (0..count).filter(|_| random.one_in(one_in)).collect();
    (0..count).map(&mut parents).collect()
}
