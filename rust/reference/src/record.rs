//! Reading a task record, from the left, into a table.

use crate::refusal::{Refusal, Rule};

/// A task as its record gives it, with the cost that its steps have paid. A node
/// with execution 0 is a join. Entries past the node count are 0.
#[derive(Clone, Debug, PartialEq, Eq)]
pub struct Table {
    pub edition: u64,
    pub id: u64,
    pub period: u64,
    pub count: usize,
    pub executions: [u64; Table::LARGEST_COUNT],
    /// Node v's parents, node p as bit p.
    pub parents: [u64; Table::LARGEST_COUNT],
}

impl Table {
    pub const LARGEST_EDITION: u64 = 2;
    pub const LARGEST_ID: u64 = 65_535;
    pub const LARGEST_PERIOD: u64 = 16_777_215;
    pub const LARGEST_COUNT: usize = 64;
    pub const LARGEST_EXECUTION: u64 = 65_535;
    pub const LARGEST_COST: u64 = 255;

    /// Refusals 1 to 9 and 18, in the order they are met, then 21.
    pub(crate) fn read(record: &[u8]) -> Result<Table, Refusal> {
        let mut reader = Reader::of(record);
        let edition = reader.within(1, Table::LARGEST_EDITION, Rule::Edition)?;
        let id = reader.within(1, Table::LARGEST_ID, Rule::Id)?;
        let period = reader.within(1, Table::LARGEST_PERIOD, Rule::Period)?;
        let count = reader.within(1, Table::LARGEST_COUNT as u64, Rule::NodeCount)?;
        let mut table = Table {
            edition,
            id,
            period,
            count: count as usize,
            executions: [0; Table::LARGEST_COUNT],
            parents: [0; Table::LARGEST_COUNT],
        };
        let least = Table::least_execution(edition);
        for node in 0..table.count {
            table.executions[node] =
                reader.within(least, Table::LARGEST_EXECUTION, Rule::Execution)?;
            table.parents[node] = reader.parents(count)?;
        }
        reader.end()?;
        if table.executions == [0; Table::LARGEST_COUNT] {
            return Err(Rule::NothingRuns.into());
        }
        Ok(table)
    }

    /// An execution is what is written plus the cost. A join pays nothing.
    pub(crate) fn pay(&mut self, cost: u64) {
        for execution in &mut self.executions[..self.count] {
            if *execution > 0 {
                *execution += cost;
            }
        }
    }

    /// Only edition 2 has joins.
    pub(crate) fn least_execution(edition: u64) -> u64 {
        u64::from(edition == 1)
    }

    /// The set of the task's nodes.
    pub(crate) fn all_nodes(&self) -> u64 {
        u64::MAX >> (Table::LARGEST_COUNT - self.count)
    }
}

/// The record, or the file of records, the place of the next byte in it, and the
/// most groups of a number.
pub struct Reader<'a> {
    record: &'a [u8],
    at: usize,
    groups: usize,
}

impl<'a> Reader<'a> {
    pub fn of(record: &'a [u8]) -> Reader<'a> {
        Reader {
            record,
            at: 0,
            groups: 4,
        }
    }

    /// A plan record's numbers may be longer.
    pub fn of_plan(plan: &'a [u8]) -> Reader<'a> {
        Reader {
            groups: 9,
            ..Reader::of(plan)
        }
    }

    pub fn place(&self) -> usize {
        self.at
    }

    pub fn is_at_end(&self) -> bool {
        self.at == self.record.len()
    }

    /// So many bytes; refusal 1 where fewer are left.
    pub fn part(&mut self, length: usize) -> Result<&'a [u8], Refusal> {
        let Some(part) = self.record[self.at..].get(..length) else {
            return Err(Refusal::at(Rule::InputEnds, self.record.len()));
        };
        self.at += length;
        Ok(part)
    }

    /// A parent count and that many ascending parents, as a set.
    fn parents(&mut self, count: u64) -> Result<u64, Refusal> {
        let written = self.within(0, count, Rule::Parents)?;
        let mut set = 0;
        let mut least = 0;
        for _ in 0..written {
            let parent = self.within(least, count - 1, Rule::Parents)?;
            set |= 1 << parent;
            least = parent + 1;
        }
        Ok(set)
    }

    /// A number that has to lie in low..=high; it is read whole before that.
    #[inline]
    pub fn within(&mut self, low: u64, high: u64, rule: Rule) -> Result<u64, Refusal> {
        let place = self.at;
        let value = self.number()?;
        if low <= value && value <= high {
            Ok(value)
        } else {
            Err(Refusal::at(rule, place))
        }
    }

    /// Most numbers are one byte, so that case goes first.
    #[inline]
    pub fn number(&mut self) -> Result<u64, Refusal> {
        match self.record.get(self.at) {
            Some(&byte) if byte < 0x80 => {
                self.at += 1;
                Ok(u64::from(byte))
            }
            _ => self.long_number(),
        }
    }

    fn long_number(&mut self) -> Result<u64, Refusal> {
        let mut value = 0;
        for group in 0..self.groups {
            let Some(&byte) = self.record.get(self.at + group) else {
                return Err(Refusal::at(Rule::InputEnds, self.record.len()));
            };
            value |= u64::from(byte & 0x7f) << (7 * group);
            // A last byte of 0 after others would be a longer form than needed.
            if byte == 0 && group > 0 {
                return Err(Refusal::at(Rule::NotShortest, self.at));
            }
            if byte < 0x80 {
                self.at += group + 1;
                return Ok(value);
            }
        }
        Err(Refusal::at(Rule::TooLong, self.at))
    }

    /// Refusal 9.
    pub fn end(&self) -> Result<(), Refusal> {
        if !self.is_at_end() {
            return Err(Refusal::at(Rule::BytesFollow, self.at));
        }
        Ok(())
    }
}
