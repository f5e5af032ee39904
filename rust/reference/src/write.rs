//! Writing a task record, from the left, for a table given as two lists.

use crate::record::Table;
use crate::refusal::{Refusal, Rule};

/// Edition, id, period and node count, then for each of 64 nodes an execution,
/// a parent count and 64 parents.
const LONGEST: usize = 1 + 3 + 4 + 1 + Table::LARGEST_COUNT * (3 + 1 + Table::LARGEST_COUNT);

/// Refusal 19 for the lists, then 3 to 8 as the record would meet its numbers,
/// then 21, and 19 for the lent bytes; the value is the record's length.
pub fn write(
    executions: &[u64],
    parents: &[u64],
    bytes: &mut [u8],
    edition: u64,
    id: u64,
    period: u64,
) -> Result<u64, Refusal> {
    if executions.len() != parents.len() {
        return Err(Rule::Lengths.into());
    }
    let mut writer = Writer::at_zero();
    let count = executions.len() as u64;
    writer.within(edition, 1, Table::LARGEST_EDITION, Rule::Edition)?;
    writer.within(id, 1, Table::LARGEST_ID, Rule::Id)?;
    writer.within(period, 1, Table::LARGEST_PERIOD, Rule::Period)?;
    writer.within(count, 1, Table::LARGEST_COUNT as u64, Rule::NodeCount)?;
    let least = Table::least_execution(edition);
    for (&execution, &set) in executions.iter().zip(parents) {
        writer.within(execution, least, Table::LARGEST_EXECUTION, Rule::Execution)?;
        writer.parents(set, count)?;
    }
    if executions.iter().all(|&execution| execution == 0) {
        return Err(Rule::NothingRuns.into());
    }
    writer.hand_over(bytes)
}

/// A record as far as it is written, aside from the lent bytes: these are only
/// touched when nothing can be refused any more. A plan record is shorter.
pub struct Writer {
    bytes: [u8; LONGEST],
    at: usize,
}

impl Writer {
    pub fn at_zero() -> Writer {
        Writer {
            bytes: [0; LONGEST],
            at: 0,
        }
    }

    /// Refusal 19.
    pub fn hand_over(&self, bytes: &mut [u8]) -> Result<u64, Refusal> {
        let record = &self.bytes[..self.at];
        let lent = bytes.len();
        let Some(bytes) = bytes.get_mut(..record.len()) else {
            return Err(Refusal::at(Rule::Lengths, lent));
        };
        bytes.copy_from_slice(record);
        Ok(record.len() as u64)
    }

    /// How many parents a set has, and these, ascending.
    fn parents(&mut self, mut set: u64, count: u64) -> Result<(), Refusal> {
        self.within(set.count_ones().into(), 0, count, Rule::Parents)?;
        while set != 0 {
            let parent = u64::from(set.trailing_zeros());
            self.within(parent, 0, count - 1, Rule::Parents)?;
            set &= set - 1;
        }
        Ok(())
    }

    /// A number that has to lie in low..=high; otherwise the refusal is at the
    /// byte where it would have stood.
    #[inline]
    fn within(&mut self, value: u64, low: u64, high: u64, rule: Rule) -> Result<(), Refusal> {
        if value < low || high < value {
            return Err(Refusal::at(rule, self.at));
        }
        self.number(value);
        Ok(())
    }

    /// Groups of seven bits, lowest first, no more than it takes.
    #[inline]
    pub fn number(&mut self, mut value: u64) {
        while value >= 0x80 {
            self.byte(value as u8 | 0x80);
            value >>= 7;
        }
        self.byte(value as u8);
    }

    #[inline]
    fn byte(&mut self, byte: u8) {
        self.bytes[self.at] = byte;
        self.at += 1;
    }
}
