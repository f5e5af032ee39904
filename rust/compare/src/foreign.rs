//! Plans, whoever made them, and what they are made from: a task with its own
//! plan.

use crate::boards::MILLION;
use crate::draft::{read_number_of, Draft};
use crate::tasks::LARGEST_COST;
use crate::written::refused;
use ffi::task::encoded;
use reference::{Answer, PLAN_WORDS};
use std::ops::Range;

/// What nine groups can hold.
pub const LARGEST_NUMBER: u64 = (1 << 63) - 1;

/// The groups of a plan record's number.
const GROUPS: usize = 9;

/// What the writer of plans is given, with the number of bytes lent.
#[derive(Clone, PartialEq)]
pub struct PlanWriting {
    pub words: Vec<u64>,
    pub id: u64,
    pub lent: u64,
}

pub type Triples = Vec<[u64; 3]>;

#[derive(Clone, PartialEq)]
pub struct Foreign {
    pub id: u64,
    pub over: u64,
    /// Threads, length, numerator.
    pub segments: Triples,
    /// Offset, deadline, density.
    pub nodes: Triples,
}

impl Foreign {
    /// With so many segments and nodes; the other numbers are all that one.
    pub fn of(segments: usize, nodes: usize, number: u64) -> Foreign {
        Foreign {
            id: number,
            over: number,
            segments: vec![[number; 3]; segments],
            nodes: vec![[number; 3]; nodes],
        }
    }

    /// As planning fills them.
    pub fn words(&self) -> Vec<u64> {
        let counts = [self.segments.len(), self.nodes.len()].map(|count| count as u64);
        let head = [self.over, counts[0], counts[1]];
        [
            &head,
            self.segments.as_flattened(),
            self.nodes.as_flattened(),
        ]
        .concat()
    }

    /// None where there are fewer words than their counts say.
    pub fn of_words(id: u64, words: &[u64]) -> Option<Foreign> {
        let (&[over, segments, nodes], lists) = words.split_first_chunk()?;
        let triples = |words: &[u64]| words.chunks_exact(3).map(triple).collect();
        let length = |count: u64| usize::try_from(count).ok()?.checked_mul(3);
        let (segments, rest) = lists.split_at_checked(length(segments)?)?;
        Some(Foreign {
            id,
            over,
            segments: triples(segments),
            nodes: triples(rest.get(..length(nodes)?)?),
        })
    }

    /// In the record's order, each list after its count.
    pub fn numbers(&self) -> Vec<u64> {
        let mut numbers = vec![self.id, self.over];
        for list in [&self.segments, &self.nodes] {
            numbers.push(list.len() as u64);
            numbers.extend(list.as_flattened());
        }
        numbers
    }

    pub fn record(&self) -> Vec<u8> {
        encoded(&self.numbers())
    }

    /// The record taken apart, or what has to be answered to it.
    pub fn read(record: &[u8]) -> Result<Foreign, Answer> {
        let mut rest = record;
        let foreign = Foreign {
            id: number(record, &mut rest)?,
            over: number(record, &mut rest)?,
            segments: list(record, &mut rest)?,
            nodes: list(record, &mut rest)?,
        };
        match rest {
            [] => Ok(foreign),
            _ => Err(refused(9, (record.len() - rest.len()) as u64)),
        }
    }
}

fn triple(words: &[u64]) -> [u64; 3] {
    [words[0], words[1], words[2]]
}

fn number(record: &[u8], rest: &mut &[u8]) -> Result<u64, Answer> {
    let place = (record.len() - rest.len()) as u64;
    let is_short = rest.len() < GROUPS;
    match read_number_of(rest, GROUPS) {
        Some(number) if number.padding > 0 => Err(refused(18, place)),
        Some(number) => Ok(number.value),
        None if is_short => Err(refused(1, record.len() as u64)),
        None => Err(refused(2, place)),
    }
}

fn list(record: &[u8], rest: &mut &[u8]) -> Result<Triples, Answer> {
    let place = (record.len() - rest.len()) as u64;
    let count = number(record, rest)?;
    if !(1..=64).contains(&count) {
        return Err(refused(24, place));
    }
    let numbers = (0..3 * count).map(|_| number(record, rest));
    let numbers = numbers.collect::<Result<Vec<u64>, Answer>>()?;
    Ok(numbers.chunks_exact(3).map(triple).collect())
}

/// A task with its cost paid, its own plan, and the segments that each node runs
/// in, read off that plan.
pub struct Base {
    pub period: u64,
    pub executions: Vec<u64>,
    pub parents: Vec<Vec<u64>>,
    pub own: Foreign,
    runs: Vec<Range<usize>>,
}

type Plan = fn(&[u8], &mut [u64], u64) -> Answer;

impl Base {
    /// None where that side does not plan it.
    pub fn of(plan: Plan, record: &[u8], cost: u64) -> Option<Base> {
        let mut words = [0; PLAN_WORDS];
        if plan(record, &mut words, cost).refusal != 0 {
            return None;
        }
        let draft = Draft::read(record)?;
        let own = Foreign::of_words(draft.id.value, &words)?;
        let paid = |execution: u64| if execution > 0 { execution + cost } else { 0 };
        let executions = draft.nodes.iter().map(|node| paid(node.execution.value));
        let parents = draft.nodes.iter().map(|node| node.parents.iter());
        Some(Base {
            period: draft.period.value,
            executions: executions.collect(),
            parents: parents
                .map(|parents| parents.map(|parent| parent.value).collect())
                .collect(),
            runs: runs(&own)?,
            own,
        })
    }

    /// By the reference, at the largest cost where that one is refused.
    pub fn drawn(record: &[u8], cost: u64) -> Option<Base> {
        Base::of(reference::plan, record, cost.min(LARGEST_COST))
    }

    pub fn work(&self) -> u64 {
        self.executions.iter().sum()
    }

    /// Q and the segments' numerators, so many times as large.
    pub fn scaled(&self, times: u64) -> (u64, Vec<u64>) {
        let segments = self.own.segments.iter();
        let numerators = segments.map(|[_, _, numerator]| numerator * times);
        (self.own.over * times, numerators.collect())
    }

    /// The plan with these numerators over that Q: all else follows.
    pub fn shared(&self, over: u64, numerators: &[u64]) -> Foreign {
        let mut foreign = Foreign {
            over,
            ..self.own.clone()
        };
        for (segment, numerator) in foreign.segments.iter_mut().zip(numerators) {
            segment[2] = *numerator;
        }
        let end = |segment: usize| numerators[..segment].iter().sum::<u64>();
        for (node, run) in self.runs.iter().enumerate() {
            let (offset, deadline) = (end(run.start), end(run.end) - end(run.start));
            let density = density(self.executions[node], over, deadline);
            let density = density.min(LARGEST_NUMBER.into()) as u64;
            foreign.nodes[node] = [offset, deadline, density];
        }
        foreign
    }

    /// The number of the first rule that a plan with as many nodes breaks.
    pub fn first_broken(&self, foreign: &Foreign) -> Option<u64> {
        let case = (self, foreign);
        let broken = RULES.iter().position(|holds| !holds(case));
        broken.map(|at| at as u64 + 1)
    }
}

/// From the end at which the node's offset lies to that of its deadline. No two
/// ends of an own plan are the same.
fn runs(own: &Foreign) -> Option<Vec<Range<usize>>> {
    let mut ends = vec![0];
    for [_, _, numerator] in &own.segments {
        ends.push(ends[ends.len() - 1] + numerator);
    }
    let at = |end: u64| ends.iter().position(|&other| other == end);
    let run = |node: &[u64; 3]| Some(at(node[0])?..at(node[0] + node[1])?);
    own.nodes.iter().map(run).collect()
}

/// In millionths, rounded up; 0 where there is no deadline.
fn density(execution: u64, over: u64, deadline: u64) -> u128 {
    match deadline {
        0 => 0,
        _ => product([execution, over, MILLION]).div_ceil(deadline.into()),
    }
}

/// A rule of request j.
type Rule = fn((&Base, &Foreign)) -> bool;

const RULES: [Rule; 8] = [
    |(_, foreign)| (1..=8_421_120).contains(&foreign.over),
    |(base, foreign)| cut(&base.own) == cut(foreign),
    |(base, foreign)| sum(&foreign.segments) == product([base.period, foreign.over]),
    |(base, foreign)| {
        let mut nodes = foreign.nodes.iter().zip(&base.runs);
        nodes.all(|(node, run)| u128::from(node[1]) == sum(&foreign.segments[run.clone()]))
    },
    |(base, foreign)| {
        let end = |&parent: &u64| {
            let [offset, deadline, _] = foreign.nodes[parent as usize].map(u128::from);
            offset + deadline
        };
        let mut nodes = foreign.nodes.iter().zip(&base.parents);
        nodes.all(|(node, parents)| {
            u128::from(node[0]) == parents.iter().map(end).max().unwrap_or(0)
        })
    },
    |(base, foreign)| {
        let mut nodes = foreign.nodes.iter().zip(&base.executions);
        nodes.all(|(node, &execution)| product([execution, foreign.over]) <= product([2, node[1]]))
    },
    |(base, foreign)| {
        let mut segments = foreign.segments.iter();
        segments.all(|&[threads, length, numerator]| {
            let dense = product([threads, length, foreign.over, base.period]);
            dense <= product([2, base.work(), numerator])
        })
    },
    |(base, foreign)| {
        let mut nodes = foreign.nodes.iter().zip(&base.executions);
        nodes.all(|(node, &execution)| {
            u128::from(node[2]) == density(execution, foreign.over, node[1])
        })
    },
];

fn cut(foreign: &Foreign) -> Vec<[u64; 2]> {
    let segments = foreign.segments.iter();
    segments
        .map(|&[threads, length, _]| [threads, length])
        .collect()
}

fn sum(segments: &[[u64; 3]]) -> u128 {
    segments.iter().map(|segment| u128::from(segment[2])).sum()
}

fn product<const FACTORS: usize>(factors: [u64; FACTORS]) -> u128 {
    factors.map(u128::from).iter().product()
}
