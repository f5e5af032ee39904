//! The refusal numbers, and the place and set of nodes that go with them.

/// Why a call refuses, with the documents' number for it.
#[derive(Clone, Copy, Debug)]
pub enum Rule {
    InputEnds = 1,
    TooLong = 2,
    Edition = 3,
    Id = 4,
    Period = 5,
    NodeCount = 6,
    Execution = 7,
    Parents = 8,
    BytesFollow = 9,
    Loop = 10,
    Path = 11,
    Standing = 12,
    BoardFull = 13,
    NotStanding = 14,
    Cores = 15,
    ShortPlan = 16,
    UnsoundBoard = 17,
    NotShortest = 18,
    Lengths = 19,
    WouldBeNo = 20,
    NothingRuns = 21,
    Layout = 22,
    TaskCount = 23,
    PlanCount = 24,
    UnfitPlan = 25,
    Cost = 26,
    LongFile = 27,
    LargeWord = 28,
}

/// A rule, where it was broken, and the nodes of a loop. The place is a byte, a
/// node, a word or the number of a plan's rule.
#[derive(Clone, Copy, Debug)]
pub struct Refusal {
    rule: Rule,
    place: usize,
    ring: u64,
}

impl Refusal {
    pub fn at(rule: Rule, place: usize) -> Refusal {
        Refusal {
            rule,
            place,
            ring: 0,
        }
    }

    /// At the node that the loop is named by, one of the ring.
    pub fn of_loop(node: usize, ring: u64) -> Refusal {
        Refusal {
            rule: Rule::Loop,
            place: node,
            ring,
        }
    }

    /// The same rule, broken elsewhere.
    pub fn moved(self, place: usize) -> Refusal {
        Refusal { place, ..self }
    }

    pub fn number(self) -> u64 {
        self.rule as u64
    }

    pub fn place(self) -> u64 {
        self.place as u64
    }

    pub fn ring(self) -> u64 {
        self.ring
    }
}

/// Rules that speak of no byte and no node have place 0.
impl From<Rule> for Refusal {
    fn from(rule: Rule) -> Refusal {
        Refusal::at(rule, 0)
    }
}
