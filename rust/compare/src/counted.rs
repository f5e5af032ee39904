//! What request e asks of a walk through a building, looked at in the library's
//! answers by themselves. The file is taken apart here as well, and each record
//! planned alone.

use crate::boards::MILLION;
use crate::case::Call;
use crate::draft::{read_number, Draft};
use crate::parts::Parts;
use crate::refused::Refused;
use crate::said::Said;
use crate::tasks::LARGEST_COST;
use crate::written::refused;
use reference::{Answer, Counts, PLAN_WORDS};

/// The bytes of the largest file.
pub const LARGEST: usize = 1_048_576;

const HEAD: &str = "a cost above 255 is 26 and then a longer file 27, at 0 with nothing counted";

/// A rule in words, and whether it holds.
type Rule = (&'static str, fn(&Counted) -> bool);

const RULES: [Rule; 6] = [
    (
        "the walk ends where the file taken apart does; the value is the records or 0",
        Counted::ends_there,
    ),
    (
        "a record is accepted or refused, and counted once",
        Counted::is_whole,
    ),
    (
        "records are refused by 1 to 11, 18 and 21 alone",
        Counted::is_refused_by_planning,
    ),
    ("a segment is heavy or light", Counted::has_kinds),
    (
        "a record is accepted, or refused by a number, as it is planned alone",
        Counted::is_planned_alike,
    ),
    (
        "what is counted of accepted records is what their plans have",
        Counted::is_counted_alike,
    ),
];

/// The first rule that the answer breaks.
pub fn broken(call: &Call, said: &Said) -> Option<&'static str> {
    let (Call::Building { file, cost }, Said::Counts(counts)) = (call, said) else {
        return None;
    };
    if let Some(answer) = head(file, *cost) {
        return (**counts != uncounted(answer)).then_some(HEAD);
    }
    let parts = Parts::of(file);
    let counted = Counted {
        counts: **counts,
        planned: planned(&parts.records, *cost),
        parts,
    };
    let broken = RULES.into_iter().find(|(_, holds)| !holds(&counted));
    broken.map(|(rule, _)| rule)
}

/// What is refused before the walk.
fn head(file: &[u8], cost: u64) -> Option<Answer> {
    if cost > LARGEST_COST {
        return Some(refused(26, 0));
    }
    (file.len() > LARGEST).then(|| refused(27, 0))
}

fn uncounted(answer: Answer) -> Counts {
    Counts {
        answer,
        ..Counts::default()
    }
}

/// What was counted, beside the file taken apart and what is to be counted of its
/// records.
struct Counted {
    counts: Counts,
    parts: Parts,
    planned: Counts,
}

impl Counted {
    fn ends_there(&self) -> bool {
        let Parts { records, tail } = &self.parts;
        let end = self.parts.file().len();
        let place = (end - tail.len()) as u64;
        let answer = match read_number(&mut &tail[..]) {
            _ if tail.is_empty() => Answer {
                value: records.len() as u64,
                ..Answer::default()
            },
            Some(length) if length.padding > 0 => refused(18, place),
            Some(_) => refused(1, end as u64),
            None if tail.len() < 4 => refused(1, place),
            None => refused(2, place),
        };
        self.counts.answer == answer
    }

    fn is_whole(&self) -> bool {
        let Counts {
            records, accepted, ..
        } = self.counts;
        let refused: u64 = self.counts.refused.iter().sum();
        records == self.parts.records.len() as u64 && records == accepted + refused
    }

    fn is_refused_by_planning(&self) -> bool {
        let mut numbers = (0..).zip(self.counts.refused);
        numbers.all(|(number, many)| many == 0 || matches!(number, 1..=11 | 18 | 21))
    }

    fn has_kinds(&self) -> bool {
        let Counts {
            segments,
            heavy,
            light,
            ..
        } = self.counts;
        segments == heavy + light
    }

    fn is_planned_alike(&self) -> bool {
        let (ours, planned) = (&self.counts, &self.planned);
        ours.accepted == planned.accepted && ours.refused == planned.refused
    }

    fn is_counted_alike(&self) -> bool {
        let Counts {
            answer, records, ..
        } = self.counts;
        self.counts
            == Counts {
                answer,
                records,
                ..self.planned
            }
    }
}

/// What is to be counted of these records, each planned alone by the library.
fn planned(records: &[Vec<u8>], cost: u64) -> Counts {
    let mut counts = Counts::default();
    let mut words = [0; PLAN_WORDS];
    for record in records {
        match ffi::plan(record, &mut words, cost).refusal {
            0 => add_plan(&mut counts, record, &words),
            number => counts.refused[number as usize] += 1,
        }
    }
    counts
}

/// Of an accepted record. Its period is the one thing that its plan doesn't say.
fn add_plan(counts: &mut Counts, record: &[u8], words: &[u64]) {
    let period = Draft::read(record).map_or(0, |draft| draft.period.value);
    let (segments, nodes) = words[3..].split_at(3 * words[1] as usize);
    let work = segments.chunks(3).map(|segment| segment[0] * segment[1]);
    let work: u64 = work.sum();
    let path: u64 = segments.chunks(3).map(|segment| segment[1]).sum();
    let is_heavy = |segment: &&[u64]| segment[0] * (2 * period).saturating_sub(path) > work;
    let heavy = segments.chunks(3).filter(is_heavy).count() as u64;
    let mut nodes = nodes.chunks(3).take(words[2] as usize);
    counts.accepted += 1;
    counts.nodes += words[2];
    counts.segments += words[1];
    counts.work += work;
    counts.heavy += heavy;
    counts.light += words[1] - heavy;
    counts.dense += u64::from(nodes.any(|node| node[2] > MILLION));
}

/// How many files were walked to their end, and how many refused by which number;
/// and over all of them what was counted.
#[derive(Default)]
pub struct Tally {
    pub walked: u64,
    pub refused: Refused,
    pub accepted: u64,
    pub records_refused: Refused,
    pub heavy: u64,
    pub light: u64,
    pub dense: u64,
}

impl Tally {
    pub fn count(&mut self, said: &Said) {
        let Said::Counts(counts) = said else {
            return;
        };
        match counts.answer.refusal {
            0 => self.walked += 1,
            number => self.refused.count(number),
        }
        self.accepted += counts.accepted;
        self.records_refused.add(&Refused::of(&counts.refused));
        self.heavy += counts.heavy;
        self.light += counts.light;
        self.dense += counts.dense;
    }

    pub fn add(&mut self, other: &Tally) {
        self.walked += other.walked;
        self.refused.add(&other.refused);
        self.accepted += other.accepted;
        self.records_refused.add(&other.records_refused);
        self.heavy += other.heavy;
        self.light += other.light;
        self.dense += other.dense;
    }
}
