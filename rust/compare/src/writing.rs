//! What the writer is given: a table as two lists, and bytes to write into.

use ffi::task::{encoded, Task};

#[derive(Clone, PartialEq)]
pub struct Writing {
    pub edition: u64,
    pub id: u64,
    pub period: u64,
    pub executions: Vec<u64>,
    /// For each node a set, node k as bit k.
    pub parents: Vec<u64>,
    /// The number of bytes lent.
    pub lent: u64,
}

impl Writing {
    /// Where each number stands among those that the caller chooses; the nodes
    /// have two each, and the sets are the odd ones.
    pub const EDITION_AT: usize = 0;
    pub const ID_AT: usize = 1;
    pub const PERIOD_AT: usize = 2;
    pub const COUNT_AT: usize = 3;
    const NODES_AT: usize = 4;

    /// Into just as many bytes as the record takes.
    pub fn of(task: &Task) -> Writing {
        let (executions, parents) = task.lists();
        Writing {
            edition: task.edition,
            id: task.id,
            period: task.period,
            executions,
            parents,
            lent: 0,
        }
        .exact()
    }

    pub fn exact(mut self) -> Writing {
        self.lent = self.length();
        self
    }

    pub fn choices(&self) -> usize {
        Writing::NODES_AT + 2 * self.executions.len()
    }

    /// Changes one of the numbers. The node count is both lists' length; nodes
    /// that are added have a unit and no parents.
    pub fn choose(&mut self, at: usize, value: u64) {
        let node = at.saturating_sub(Writing::NODES_AT) / 2;
        match at {
            Writing::EDITION_AT => self.edition = value,
            Writing::ID_AT => self.id = value,
            Writing::PERIOD_AT => self.period = value,
            Writing::COUNT_AT => {
                self.executions.resize(value as usize, 1);
                self.parents.resize(value as usize, 0);
            }
            _ if at.is_multiple_of(2) => self.executions[node] = value,
            _ => self.parents[node] = value,
        }
    }

    /// The record's numbers in their order, whatever they are.
    pub fn numbers(&self) -> Vec<u64> {
        let count = self.executions.len() as u64;
        let mut numbers = vec![self.edition, self.id, self.period, count];
        for (&execution, &set) in self.executions.iter().zip(&self.parents) {
            numbers.extend([execution, set.count_ones().into()]);
            numbers.extend((0..64).filter(|node| set >> node & 1 == 1));
        }
        numbers
    }

    /// The length of the record that has these numbers.
    pub fn length(&self) -> u64 {
        encoded(&self.numbers()).len() as u64
    }

    /// Drops nodes; later ones move up, in the sets too.
    pub fn drop_nodes(&mut self, first: usize, length: usize) {
        self.executions.drain(first..first + length);
        self.parents.drain(first..first + length);
        let bit = 1u64.checked_shl(first as u32);
        let before = bit.map_or(u64::MAX, |bit| bit - 1);
        for set in &mut self.parents {
            let after = set.checked_shr(length as u32).unwrap_or(0);
            *set = *set & before | after & !before;
        }
    }
}

/// Bytes as they are lent: no number ends with one of these.
pub fn old_bytes(lent: u64) -> Vec<u8> {
    (0..lent).map(|at| at as u8 | 0x80).collect()
}
