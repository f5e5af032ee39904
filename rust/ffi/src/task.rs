//! Tasks, their records, their texts, files of records, and some shapes of graph.

/// A node's execution, 0 for a join, and its parents, ascending.
#[derive(Clone, Debug, PartialEq)]
pub struct Node {
    pub execution: u64,
    pub parents: Vec<u64>,
}

#[derive(Clone, Debug, PartialEq)]
pub struct Task {
    pub edition: u64,
    pub id: u64,
    pub period: u64,
    pub nodes: Vec<Node>,
}

impl Task {
    /// Where the node count stands among the numbers.
    pub const COUNT_AT: usize = 3;

    /// The record's numbers in their order.
    pub fn numbers(&self) -> Vec<u64> {
        let mut numbers = vec![self.edition, self.id, self.period, self.nodes.len() as u64];
        for node in &self.nodes {
            numbers.extend([node.execution, node.parents.len() as u64]);
            numbers.extend(&node.parents);
        }
        numbers
    }

    pub fn record(&self) -> Vec<u8> {
        encoded(&self.numbers())
    }

    /// The numbers of its Standard Task Graph text, line by line. Its first node
    /// and its last stand for the dummies, so it has at least two.
    fn lines(&self) -> Vec<Vec<u64>> {
        let mut lines = vec![vec![self.nodes.len() as u64 - 2]];
        for (node, number) in self.nodes.iter().zip(0..) {
            let mut line = vec![number, node.execution, node.parents.len() as u64];
            line.extend(&node.parents);
            lines.push(line);
        }
        lines
    }

    /// That text, each number in so many digits, or as many as it takes.
    pub fn text(&self, digits: usize) -> Vec<u8> {
        let word = |number: &u64| format!("{number:0digits$}");
        let line = |line: Vec<u64>| line.iter().map(word).collect::<Vec<_>>().join(" ") + "\n";
        self.lines()
            .into_iter()
            .flat_map(|numbers| line(numbers).into_bytes())
            .collect()
    }

    /// For each node its execution, and its parents as a set, node k as bit k.
    pub fn lists(&self) -> (Vec<u64>, Vec<u64>) {
        let set = |node: &Node| node.parents.iter().fold(0, |set, parent| set | 1 << parent);
        let executions = self.nodes.iter().map(|node| node.execution);
        (executions.collect(), self.nodes.iter().map(set).collect())
    }

    /// The longest record that is read to its end; its nodes form loops.
    pub fn longest() -> Task {
        let node = Node {
            execution: 65_535,
            parents: (0..64).collect(),
        };
        Task {
            edition: 1,
            id: 65_535,
            period: 16_777_215,
            nodes: vec![node; 64],
        }
    }

    /// The longest record that is mended, and the longest is written of it. Each
    /// number has four bytes, and each list as many parents as it may have.
    pub fn longest_given() -> Vec<u8> {
        let mut task = Task::longest();
        for node in &mut task.nodes {
            node.parents = (0..64).rev().cycle().take(255).collect();
        }
        let numbers = task.numbers().into_iter();
        numbers.flat_map(|number| stretched(number, 4)).collect()
    }

    /// A long text, and the longest record is written of it: its words have five
    /// digits each, and its lists are backward.
    pub fn longest_text() -> Vec<u8> {
        let mut task = Task::longest();
        task.nodes
            .iter_mut()
            .for_each(|node| node.parents.reverse());
        task.text(5)
    }

    /// The task in edition 2; every other node from that one on is a join.
    pub fn half_joins(mut self, first: usize) -> Task {
        self.edition = 2;
        let joins = self.nodes.iter_mut().skip(first).step_by(2);
        joins.for_each(|node| node.execution = 0);
        self
    }
}

/// A number's shortest form, whatever its size.
pub fn number(value: u64) -> Vec<u8> {
    encoded(&[value])
}

/// A number in so many bytes, or as many as it takes.
pub fn stretched(value: u64, bytes: usize) -> Vec<u8> {
    let mut form = number(value);
    form.resize(bytes.max(form.len()), 0);
    let (_, before) = form.split_last_mut().expect("a number has a byte");
    before.iter_mut().for_each(|byte| *byte |= 0x80);
    form
}

/// Numbers one after the other, each in its shortest form.
pub fn encoded(numbers: &[u64]) -> Vec<u8> {
    let mut bytes = Vec::with_capacity(numbers.len());
    for mut value in numbers.iter().copied() {
        while value >= 0x80 {
            bytes.push(value as u8 | 0x80);
            value >>= 7;
        }
        bytes.push(value as u8);
    }
    bytes
}

/// A building's file: each record after its length.
pub fn file(records: &[Vec<u8>]) -> Vec<u8> {
    let mut file = Vec::new();
    for record in records {
        file.extend(number(record.len() as u64));
        file.extend(record);
    }
    file
}

/// Each node has the one before it as its parent.
pub fn chain(count: u64) -> Vec<Vec<u64>> {
    (0..count)
        .map(|node| (node.max(1) - 1..node).collect())
        .collect()
}

/// A chain whose first node has the last as its parent.
pub fn ring(count: u64) -> Vec<Vec<u64>> {
    (0..count)
        .map(|node| vec![(node + count - 1) % count])
        .collect()
}

/// One root, its children, and a last node that joins them.
pub fn fork(count: u64) -> Vec<Vec<u64>> {
    let parents = |node| match node {
        0 => vec![],
        _ if node == count - 1 && count > 2 => (1..node).collect(),
        _ => vec![0],
    };
    (0..count).map(parents).collect()
}

/// Each node has all before it as its parents.
pub fn dense(count: u64) -> Vec<Vec<u64>> {
    (0..count).map(|node| (0..node).collect()).collect()
}

/// The same graph with its last node listed first.
pub fn backward(parents: Vec<Vec<u64>>) -> Vec<Vec<u64>> {
    let last = parents.len() as u64 - 1;
    let renamed = |parents: Vec<u64>| {
        let parents = parents.into_iter().rev();
        parents.map(|parent| last - parent).collect()
    };
    parents.into_iter().rev().map(renamed).collect()
}
