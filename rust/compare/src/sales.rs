//! What request i promises of verdicts, looked at in the library's answers by
//! themselves.

use crate::boards::{free_board, MILLION};
use crate::case::Call;
use reference::{Answer, Row};

/// A promise in words, and whether it holds.
type Promise = (&'static str, fn(&Verdict) -> bool);

const OF_A_YES: [Promise; 3] = [
    (
        "a yes is a yes for every larger count",
        Verdict::holds_for_more,
    ),
    (
        "a yes stays a yes after a withdrawal",
        Verdict::outlives_each,
    ),
    ("no density is above one", Verdict::has_room),
];

const OF_EACH: [Promise; 2] = [
    ("the rows' order changes nothing", Verdict::is_turned),
    ("an empty board is a yes", Verdict::is_yes_if_empty),
];

/// The first promise that the answer breaks. A refusal is no verdict.
pub fn broken(call: &Call, answer: &Answer, board: &[Row]) -> Option<&'static str> {
    let (ask, cores): (fn(&[Row], u64) -> Answer, u64) = match *call {
        Call::Ask(cores) => (ffi::ask, cores),
        Call::AskToEnd(cores) => (ffi::ask_to_end, cores),
        Call::Plan(..)
        | Call::Note(..)
        | Call::Admit { .. }
        | Call::Withdraw(_)
        | Call::Write(_)
        | Call::Mend { .. }
        | Call::ReadGraph(_)
        | Call::Building { .. }
        | Call::ReadPlan(_)
        | Call::WritePlan(_)
        | Call::Judge { .. } => return None,
    };
    if answer.refusal != 0 {
        return None;
    }
    let verdict = Verdict {
        ask,
        cores,
        board: board.to_vec(),
        yes: answer.value == 1,
    };
    let of_a_yes = OF_A_YES.into_iter().filter(|_| verdict.yes);
    let mut promises = of_a_yes.chain(OF_EACH);
    let broken = promises.find(|(_, holds)| !holds(&verdict));
    broken.map(|(promise, _)| promise)
}

/// A yes or a no, and what was asked.
struct Verdict {
    ask: fn(&[Row], u64) -> Answer,
    cores: u64,
    board: Vec<Row>,
    yes: bool,
}

impl Verdict {
    fn is_yes(&self, board: &[Row], cores: u64) -> bool {
        let answer = (self.ask)(board, cores);
        answer.refusal == 0 && answer.value == 1
    }

    fn holds_for_more(&self) -> bool {
        (self.cores..=64).all(|cores| self.is_yes(&self.board, cores))
    }

    fn outlives_each(&self) -> bool {
        let mut standing = self.board.iter().filter(|row| row.id != 0);
        standing.all(|row| {
            let mut left = self.board.clone();
            ffi::withdraw(&mut left, row.id);
            self.is_yes(&left, self.cores)
        })
    }

    fn has_room(&self) -> bool {
        self.board.iter().all(|row| row.largest <= MILLION)
    }

    fn is_turned(&self) -> bool {
        let mut turned = self.board.clone();
        turned.reverse();
        self.is_yes(&turned, self.cores) == self.yes
    }

    fn is_yes_if_empty(&self) -> bool {
        self.yes || self.board != free_board()
    }
}
