//! Mending what a sloppy editor wrote: the given record is read leniently, and
//! its table written as any other.

use crate::record::Table;
use crate::refusal::{Refusal, Rule};
use crate::write::write;
use crate::Answer;

/// Of a given list, repeats included.
const MOST_PARENTS: u64 = 255;

/// Of a number, in any form.
const MOST_BYTES: usize = 4;

/// What mending returns: the answer, and three counts over the given record,
/// which are 0 beside a refusal.
#[repr(C)]
#[derive(Clone, Copy, Debug, Default, PartialEq, Eq)]
pub struct Mending {
    pub answer: Answer,
    /// Numbers that are not in their shortest form.
    pub padded: u64,
    /// Lists whose parents, repeats after the first left out, do not ascend.
    pub reordered: u64,
    /// Parents that repeat an earlier one of their list.
    pub dropped: u64,
}

impl Mending {
    pub(crate) fn refused(refusal: Refusal) -> Mending {
        Mending {
            answer: Err(refusal).into(),
            ..Mending::default()
        }
    }
}

/// Refusals 1 to 9, in the order they are met. What is left is the writer's, in
/// its order: 21, and 19 for the lent bytes.
pub fn mended(given: &[u8], bytes: &mut [u8]) -> Result<Mending, Refusal> {
    let mut reader = Reader {
        given,
        at: 0,
        counted: Mending::default(),
    };
    let edition = reader.within(1, Table::LARGEST_EDITION, Rule::Edition)?;
    let id = reader.within(1, Table::LARGEST_ID, Rule::Id)?;
    let period = reader.within(1, Table::LARGEST_PERIOD, Rule::Period)?;
    let count = reader.within(1, Table::LARGEST_COUNT as u64, Rule::NodeCount)?;
    let least = Table::least_execution(edition);
    let mut executions = [0; Table::LARGEST_COUNT];
    let mut parents = [0; Table::LARGEST_COUNT];
    let nodes = ..count as usize;
    for (execution, set) in executions[nodes].iter_mut().zip(&mut parents[nodes]) {
        *execution = reader.within(least, Table::LARGEST_EXECUTION, Rule::Execution)?;
        *set = reader.parents(count)?;
    }
    reader.end()?;
    let (executions, parents) = (&executions[nodes], &parents[nodes]);
    let written = write(executions, parents, bytes, edition, id, period);
    Ok(Mending {
        answer: Ok(written?).into(),
        ..reader.counted
    })
}

/// The given record, the place of the next byte in it, and what was counted up
/// to there. Numbers may have any form, and parents any order.
struct Reader<'a> {
    given: &'a [u8],
    at: usize,
    counted: Mending,
}

impl Reader<'_> {
    /// A parent count and that many parents, as a set.
    fn parents(&mut self, count: u64) -> Result<u64, Refusal> {
        let given = self.within(0, MOST_PARENTS, Rule::Parents)?;
        let mut set = 0;
        let mut ascends = true;
        for _ in 0..given {
            let parent = 1 << self.within(0, count - 1, Rule::Parents)?;
            if set & parent != 0 {
                self.counted.dropped += 1;
            } else {
                // As numbers, a set of lower nodes is below the next one's bit.
                ascends &= set < parent;
                set |= parent;
            }
        }
        self.counted.reordered += u64::from(!ascends);
        Ok(set)
    }

    /// A number that has to lie in low..=high; it is read whole before that.
    #[inline]
    fn within(&mut self, low: u64, high: u64, rule: Rule) -> Result<u64, Refusal> {
        let place = self.at;
        let value = self.number()?;
        match low <= value && value <= high {
            true => Ok(value),
            false => Err(Refusal::at(rule, place)),
        }
    }

    /// Most numbers are one byte, so that case goes first.
    #[inline]
    fn number(&mut self) -> Result<u64, Refusal> {
        match self.given.get(self.at) {
            Some(&byte) if byte < 0x80 => {
                self.at += 1;
                Ok(u64::from(byte))
            }
            _ => self.long_number(),
        }
    }

    fn long_number(&mut self) -> Result<u64, Refusal> {
        let mut value = 0;
        for group in 0..MOST_BYTES {
            let Some(&byte) = self.given.get(self.at + group) else {
                return Err(Refusal::at(Rule::InputEnds, self.given.len()));
            };
            value |= u64::from(byte & 0x7f) << (7 * group);
            if byte < 0x80 {
                // A last byte of 0 after others is a longer form than needed.
                self.counted.padded += u64::from(byte == 0);
                self.at += group + 1;
                return Ok(value);
            }
        }
        Err(Refusal::at(Rule::TooLong, self.at))
    }

    fn end(&self) -> Result<(), Refusal> {
        match self.at < self.given.len() {
            true => Err(Refusal::at(Rule::BytesFollow, self.at)),
            false => Ok(()),
        }
    }
}
