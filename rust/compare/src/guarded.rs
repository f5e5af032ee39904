//! What request d asks of admitting, looked at in the library's answers by
//! themselves.

use crate::boards::free_board;
use crate::case::Call;
use reference::{Answer, Row};

/// The words and the board that a call is lent, or leaves.
pub type Buffers<'a> = (&'a [u64], &'a [Row]);

/// A rule in words, and whether it holds.
type Rule = (&'static str, fn(&Admission) -> bool);

const RULES: [Rule; 4] = [
    (
        "15 comes after 17 and before the record",
        Admission::is_counted,
    ),
    (
        "what noting refuses is refused likewise",
        Admission::is_refused_alike,
    ),
    (
        "20 is given just where the verdict would be no",
        Admission::is_guarded,
    ),
    ("what is kept is as noting has it", Admission::is_kept_alike),
];

/// The first rule that the answer breaks.
pub fn broken(
    call: &Call,
    answer: &Answer,
    before: Buffers,
    after: Buffers,
) -> Option<&'static str> {
    if answer.refusal != 0 && before != after {
        return Some("a refusal changes nothing");
    }
    let Call::Admit {
        record,
        cores,
        cost,
    } = call
    else {
        return None;
    };
    let (mut words, mut board) = (before.0.to_vec(), before.1.to_vec());
    let noted = ffi::note(record, &mut words, &mut board, *cost);
    let admission = Admission {
        cores: *cores,
        answer: *answer,
        noted,
        is_same: after == (&words, &board),
        is_yes: is_yes(&board, *cores),
    };
    let broken = RULES.into_iter().find(|(_, holds)| !holds(&admission));
    broken.map(|(rule, _)| rule)
}

fn is_yes(board: &[Row], cores: u64) -> bool {
    let answer = ffi::ask(board, cores);
    answer.refusal == 0 && answer.value == 1
}

/// An answer, beside that of noting the same on a copy.
struct Admission {
    cores: u64,
    answer: Answer,
    noted: Answer,
    /// Whether the two left the same.
    is_same: bool,
    /// Whether the verdict is a yes after noting.
    is_yes: bool,
}

impl Admission {
    fn has_count(&self) -> bool {
        (1..=64).contains(&self.cores)
    }

    fn is_counted(&self) -> bool {
        match self.noted.refusal {
            16 | 17 | 26 => self.answer == self.noted,
            _ => self.has_count() != (self.answer == refused(15)),
        }
    }

    fn is_refused_alike(&self) -> bool {
        self.noted.refusal == 0 || !self.has_count() || self.answer == self.noted
    }

    fn is_guarded(&self) -> bool {
        let would_be_no = self.noted.refusal == 0 && self.has_count() && !self.is_yes;
        would_be_no == (self.answer == refused(20))
    }

    fn is_kept_alike(&self) -> bool {
        self.answer.refusal != 0 || self.answer == self.noted && self.is_same
    }
}

fn refused(refusal: u64) -> Answer {
    Answer {
        refusal,
        ..Answer::default()
    }
}

/// A board that was empty once and on which nothing was noted since: the
/// largest number of cores that a task was admitted for. With one fixed number
/// this is what request d promises; with several it follows, since a yes is a
/// yes for every larger number.
pub struct Guard(Option<u64>);

impl Guard {
    pub fn of(board: &[Row]) -> Guard {
        Guard((board == free_board()).then_some(1))
    }

    /// The promise, if it is broken after that call.
    pub fn broken(&mut self, call: &Call, answer: &Answer, board: &[Row]) -> Option<&'static str> {
        match *call {
            Call::Note(..) if answer.refusal == 0 => self.0 = None,
            Call::Admit { cores, .. } if answer.refusal == 0 => {
                self.0 = self.0.map(|largest| largest.max(cores));
            }
            _ => (),
        }
        let broken = !is_yes(board, self.0?);
        broken.then_some("after admissions alone the verdict is a yes")
    }
}

/// How many tasks were admitted, and how many turned away by 20.
#[derive(Default)]
pub struct Tally {
    pub kept: u64,
    pub turned_away: u64,
}

impl Tally {
    pub fn count(&mut self, call: &Call, answer: &Answer) {
        if matches!(call, Call::Admit { .. }) {
            self.kept += u64::from(answer.refusal == 0);
            self.turned_away += u64::from(answer.refusal == 20);
        }
    }

    pub fn add(&mut self, other: &Tally) {
        self.kept += other.kept;
        self.turned_away += other.turned_away;
    }
}
