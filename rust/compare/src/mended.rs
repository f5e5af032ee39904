//! What request l asks of mending, looked at in the library's answers by
//! themselves. The mended record and the counts are made here as well, from the
//! given record taken apart.

use crate::case::Call;
use crate::draft::{Draft, Node, Spelt};
use crate::refused::Refused;
use crate::said::Said;
use crate::writing::old_bytes;
use crate::written;
use ffi::task::encoded;
use reference::{Answer, Mending};

/// A rule in words, and whether it holds.
type Rule = (&'static str, fn(&Mended) -> bool);

const RULES: [Rule; 7] = [
    (
        "what reading refuses, but by 8 or 18, is refused likewise",
        Mended::is_refused_alike,
    ),
    (
        "too few bytes are 19 at their number, just there",
        Mended::has_room,
    ),
    (
        "the mended record is written, and nothing past it",
        Mended::is_the_record,
    ),
    (
        "the counts are those of the given record",
        Mended::is_counted,
    ),
    (
        "what is read comes back with three zeros",
        Mended::comes_back,
    ),
    ("what is written is read", Mended::is_read),
    (
        "mending again gives the same with three zeros",
        Mended::stays,
    ),
];

/// The first rule that the answer breaks.
pub fn broken(call: &Call, said: &Said, bytes: &[u8]) -> Option<&'static str> {
    let (Call::Mend { given, lent }, Said::Mending(mending)) = (call, said) else {
        return None;
    };
    let mended = Mended {
        given: given.clone(),
        lent: *lent,
        refusal: written::refusal(given),
        mending: *mending,
        bytes: bytes.to_vec(),
    };
    let broken = RULES.into_iter().find(|(_, holds)| !holds(&mended));
    broken.map(|(rule, _)| rule)
}

/// The most bytes that are written.
pub const LONGEST: usize = 4_361;

/// An answer and the bytes after it, beside the refusal of reading what was
/// given.
struct Mended {
    given: Vec<u8>,
    lent: u64,
    refusal: Option<Answer>,
    mending: Mending,
    bytes: Vec<u8>,
}

impl Mended {
    /// 8 and 18 may be what is mended.
    fn is_refused_alike(&self) -> bool {
        match self.refusal {
            None
            | Some(Answer {
                refusal: 8 | 18, ..
            }) => true,
            Some(answer) => self.mending == uncounted(answer),
        }
    }

    /// Beside the answer where there is room for every record.
    fn has_room(&self) -> bool {
        let roomy = ffi::mend(&self.given, &mut [0; LONGEST]);
        let short = Answer {
            refusal: 19,
            place: self.lent,
            ..Answer::default()
        };
        let is_short = self.lent < roomy.answer.value;
        self.mending == if is_short { uncounted(short) } else { roomy }
    }

    /// After a refusal, that nothing is written.
    fn is_the_record(&self) -> bool {
        let record = match self.mending.answer.refusal {
            0 => made(&self.given).map(|(record, _)| record),
            _ => Some(vec![]),
        };
        record.is_some_and(|record| {
            let rest = record.len()..;
            self.mending.answer.value == record.len() as u64
                && self.bytes.starts_with(&record)
                && self.bytes[rest.clone()] == old_bytes(self.lent)[rest]
        })
    }

    /// After a refusal, that nothing is counted.
    fn is_counted(&self) -> bool {
        let Mending {
            answer,
            padded,
            reordered,
            dropped,
        } = self.mending;
        let counts = match answer.refusal {
            0 => made(&self.given).map(|(_, counts)| counts),
            _ => Some([0; 3]),
        };
        counts == Some([padded, reordered, dropped])
    }

    /// None after a refusal.
    fn written(&self) -> Option<&[u8]> {
        let answer = self.mending.answer;
        (answer.refusal == 0).then(|| &self.bytes[..answer.value as usize])
    }

    fn comes_back(&self) -> bool {
        let is_same = |record: &[u8]| record == self.given && self.mending == accepted(record);
        self.refusal.is_some() || self.written().is_none_or(is_same)
    }

    /// And writing what is read gives it again.
    fn is_read(&self) -> bool {
        self.written().is_none_or(|record| {
            let again = written::again(record);
            written::refusal(record).is_none()
                && again.is_some_and(|writing| written::gives(&writing, record))
        })
    }

    fn stays(&self) -> bool {
        self.written().is_none_or(gives)
    }
}

fn uncounted(answer: Answer) -> Mending {
    Mending {
        answer,
        ..Mending::default()
    }
}

fn accepted(record: &[u8]) -> Mending {
    uncounted(Answer {
        value: record.len() as u64,
        ..Answer::default()
    })
}

/// Whether the library finds nothing to mend in a record and writes the same.
pub fn gives(record: &[u8]) -> bool {
    let mut bytes = old_bytes(record.len() as u64);
    ffi::mend(record, &mut bytes) == accepted(record) && bytes == record
}

/// What has to come of a record that can be mended, with padded, reordered and
/// dropped.
fn made(given: &[u8]) -> Option<(Vec<u8>, [u64; 3])> {
    let mut draft = Draft::read(given)?;
    let numbers = draft.numbers().into_iter();
    let padded = numbers.filter(|number| number.padding > 0).count();
    let mut counts = [padded as u64, 0, 0];
    for Node { parents, .. } in &mut draft.nodes {
        let before = parents.len();
        keep_firsts(parents);
        counts[1] += u64::from(!parents.is_sorted_by_key(|parent| parent.value));
        counts[2] += (before - parents.len()) as u64;
        parents.sort_by_key(|parent| parent.value);
    }
    let numbers = draft.numbers().into_iter().map(|number| number.value);
    Some((encoded(&numbers.collect::<Vec<_>>()), counts))
}

/// Leaves out each parent that stands earlier in the list already.
fn keep_firsts(parents: &mut Vec<Spelt>) {
    let mut met = Vec::new();
    parents.retain(|parent| {
        let is_first = !met.contains(&parent.value);
        met.push(parent.value);
        is_first
    });
}

/// How many records were mended and in how many of them there was something to
/// mend, what was counted over all, and how many were refused by which number.
#[derive(Default)]
pub struct Tally {
    pub mended: u64,
    pub sloppy: u64,
    pub padded: u64,
    pub reordered: u64,
    pub dropped: u64,
    pub refused: Refused,
}

impl Tally {
    pub fn count(&mut self, said: &Said) {
        let Said::Mending(mending) = said else {
            return;
        };
        match mending.answer.refusal {
            0 => self.mended += 1,
            number => self.refused.count(number),
        }
        self.sloppy += u64::from(*mending != uncounted(mending.answer));
        self.padded += mending.padded;
        self.reordered += mending.reordered;
        self.dropped += mending.dropped;
    }

    pub fn add(&mut self, other: &Tally) {
        self.mended += other.mended;
        self.sloppy += other.sloppy;
        self.padded += other.padded;
        self.reordered += other.reordered;
        self.dropped += other.dropped;
        self.refused.add(&other.refused);
    }
}
