//! A record taken apart, whether it is a good one or not: for shrinking, for the
//! nodes that an answer speaks of, and for what mending has to make of it.

use ffi::task::{number, stretched};

/// A number, and how many bytes it has more than it takes.
#[derive(Clone, Copy)]
pub struct Spelt {
    pub value: u64,
    pub padding: usize,
}

impl Spelt {
    fn form(&self) -> Vec<u8> {
        let shortest = number(self.value).len();
        stretched(self.value, shortest + self.padding)
    }
}

#[derive(Clone)]
pub struct Node {
    pub execution: Spelt,
    /// Of the parent count.
    count_padding: usize,
    pub parents: Vec<Spelt>,
}

impl Node {
    fn count(&self) -> Spelt {
        Spelt {
            value: self.parents.len() as u64,
            padding: self.count_padding,
        }
    }
}

/// The nodes that could be read whole, and the bytes from there on.
#[derive(Clone)]
pub struct Draft {
    pub edition: Spelt,
    pub id: Spelt,
    pub period: Spelt,
    /// The node count, which may be above the nodes read.
    count: Spelt,
    pub nodes: Vec<Node>,
    tail: Vec<u8>,
}

impl Draft {
    /// None where it fails before the nodes; no structure is to be had then.
    pub fn read(record: &[u8]) -> Option<Draft> {
        let mut rest = record;
        let edition = read_number(&mut rest)?;
        let id = read_number(&mut rest)?;
        let period = read_number(&mut rest)?;
        let count = read_number(&mut rest)?;
        let mut nodes = Vec::new();
        while (nodes.len() as u64) < count.value {
            let Some(node) = read_node(&mut rest) else {
                break;
            };
            nodes.push(node);
        }
        Some(Draft {
            edition,
            id,
            period,
            count,
            nodes,
            tail: rest.to_vec(),
        })
    }

    pub fn record(&self) -> Vec<u8> {
        let mut record: Vec<u8> = self.numbers().iter().flat_map(Spelt::form).collect();
        record.extend(&self.tail);
        record
    }

    /// In the record's order.
    pub fn numbers(&self) -> Vec<Spelt> {
        let mut numbers = vec![self.edition, self.id, self.period, self.count];
        for node in &self.nodes {
            numbers.extend([node.execution, node.count()]);
            numbers.extend(&node.parents);
        }
        numbers
    }

    /// Drops nodes; later ones move up, in the parents too.
    pub fn drop_nodes(&mut self, first: usize, length: usize) {
        self.nodes.drain(first..first + length);
        let (first, length) = (first as u64, length as u64);
        self.count.value -= length;
        let stays = |parent: &Spelt| parent.value < first || parent.value >= first + length;
        for Node { parents, .. } in &mut self.nodes {
            parents.retain(stays);
            let later = parents.iter_mut().filter(|parent| parent.value >= first);
            later.for_each(|parent| parent.value -= length);
        }
    }
}

/// Leaves the rest as it is where no whole node can be read.
fn read_node(rest: &mut &[u8]) -> Option<Node> {
    let mut ahead = *rest;
    let execution = read_number(&mut ahead)?;
    let count = read_number(&mut ahead)?;
    let parents = (0..count.value).map(|_| read_number(&mut ahead));
    let parents = parents.collect::<Option<_>>()?;
    *rest = ahead;
    Some(Node {
        execution,
        count_padding: count.padding,
        parents,
    })
}

/// None where the bytes end inside of it, or its fourth is not its last.
pub fn read_number(rest: &mut &[u8]) -> Option<Spelt> {
    read_number_of(rest, 4)
}

/// The same with another number of groups.
pub fn read_number_of(rest: &mut &[u8], groups: usize) -> Option<Spelt> {
    let last = rest.iter().take(groups).position(|&byte| byte < 0x80)?;
    let (groups, after) = rest.split_at(last + 1);
    *rest = after;
    let value = |value, &byte: &u8| value << 7 | u64::from(byte & 0x7F);
    let value = groups.iter().rev().fold(0, value);
    Some(Spelt {
        value,
        padding: groups.len() - number(value).len(),
    })
}
