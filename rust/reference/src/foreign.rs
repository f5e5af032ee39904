//! Plan records: a plan's words as numbers of up to nine groups of seven bits.

use crate::plan::{HEAD, PLAN_WORDS};
use crate::record::{Reader, Table};
use crate::refusal::{Refusal, Rule};
use crate::write::Writer;
use std::iter;

/// What nine groups can hold.
const LARGEST_NUMBER: u64 = (1 << 63) - 1;

/// A plan, whoever made it. Q and the triples may be any numbers.
pub struct Plan {
    pub id: u64,
    pub over: u64,
    /// Threads, length and numerator of each segment.
    pub segments: Triples,
    /// Offset, deadline and density of each node.
    pub nodes: Triples,
}

impl Plan {
    /// Refusals 1, 2, 18, 24 and 9, as they are met.
    pub fn read(record: &[u8]) -> Result<Plan, Refusal> {
        let mut reader = Reader::of_plan(record);
        let mut plan = Plan {
            id: reader.number()?,
            over: reader.number()?,
            segments: Triples::none(),
            nodes: Triples::none(),
        };
        plan.segments.read(&mut reader)?;
        plan.nodes.read(&mut reader)?;
        reader.end()?;
        Ok(plan)
    }

    /// Refusal 24, at the word that has a list's count.
    fn of(words: &[u64; PLAN_WORDS], id: u64) -> Result<Plan, Refusal> {
        let segments = Triples::count(words, 1)?;
        let nodes = Triples::count(words, 2)?;
        let (segment_part, node_part) = words[HEAD..].split_at(3 * segments);
        Ok(Plan {
            id,
            over: words[0],
            segments: Triples::of(segment_part, segments),
            nodes: Triples::of(node_part, nodes),
        })
    }

    /// As planning fills the words; the others keep their content. Returns the
    /// number of words.
    pub fn hand_over(&self, words: &mut [u64; PLAN_WORDS]) -> usize {
        let (segments, nodes) = (self.segments.all(), self.nodes.all());
        let head = [self.over, segments.len() as u64, nodes.len() as u64];
        let triples = segments.iter().chain(nodes).flatten();
        for (word, &number) in words.iter_mut().zip(head.iter().chain(triples)) {
            *word = number;
        }
        HEAD + 3 * (segments.len() + nodes.len())
    }

    /// In the record's order, each list after its count.
    fn numbers(&self) -> impl Iterator<Item = u64> + '_ {
        let head = [self.id, self.over].into_iter();
        let lists = [&self.segments, &self.nodes].into_iter();
        head.chain(lists.flat_map(Triples::numbers))
    }
}

/// A list of up to 64; entries past the count are 0.
pub struct Triples {
    items: [[u64; 3]; Table::LARGEST_COUNT],
    count: usize,
}

impl Triples {
    pub fn all(&self) -> &[[u64; 3]] {
        &self.items[..self.count]
    }

    fn none() -> Triples {
        Triples {
            items: [[0; 3]; Table::LARGEST_COUNT],
            count: 0,
        }
    }

    fn read(&mut self, reader: &mut Reader) -> Result<(), Refusal> {
        let count = reader.within(1, Table::LARGEST_COUNT as u64, Rule::PlanCount)?;
        self.count = count as usize;
        for number in self.items[..self.count].as_flattened_mut() {
            *number = reader.number()?;
        }
        Ok(())
    }

    /// The count in that word.
    fn count(words: &[u64; PLAN_WORDS], at: usize) -> Result<usize, Refusal> {
        if !(1..=Table::LARGEST_COUNT as u64).contains(&words[at]) {
            return Err(Refusal::at(Rule::PlanCount, at));
        }
        Ok(words[at] as usize)
    }

    fn of(words: &[u64], count: usize) -> Triples {
        let mut list = Triples::none();
        list.count = count;
        let numbers = list.items[..count].as_flattened_mut();
        numbers.copy_from_slice(&words[..3 * count]);
        list
    }

    fn numbers(&self) -> impl Iterator<Item = u64> + '_ {
        iter::once(self.count as u64).chain(self.all().iter().flatten().copied())
    }
}

/// Refusal 16, then 24, 28, and 19 for the lent bytes; the value is the record's
/// length.
pub fn write(words: &[u64], bytes: &mut [u8], id: u64) -> Result<u64, Refusal> {
    let words = words.first_chunk().ok_or(Rule::ShortPlan)?;
    let plan = Plan::of(words, id)?;
    if plan.numbers().any(|number| number > LARGEST_NUMBER) {
        return Err(Rule::LargeWord.into());
    }
    let mut writer = Writer::at_zero();
    plan.numbers().for_each(|number| writer.number(number));
    writer.hand_over(bytes)
}
