//! What a call returns: an answer, with counts beside it where the call counts.

use reference::{Answer, Counts, Mending};

#[derive(Clone, PartialEq)]
pub enum Said {
    Answer(Answer),
    Mending(Mending),
    Counts(Box<Counts>),
}

impl Said {
    pub fn answer(&self) -> &Answer {
        match self {
            Said::Answer(answer) => answer,
            Said::Mending(mending) => &mending.answer,
            Said::Counts(counts) => &counts.answer,
        }
    }
}
