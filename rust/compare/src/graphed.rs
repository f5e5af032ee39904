//! What request h asks of reading a graph, looked at in the library's answers by
//! themselves. The record is made here as well, from the text taken apart.

use crate::case::Call;
use crate::graph::Graph;
use crate::mended::{self, LONGEST};
use crate::refused::Refused;
use crate::sketch::{Sketch, Spelling, Word, SPELLINGS};
use crate::writing::old_bytes;
use crate::written::{self, refused};
use ffi::task::encoded;
use reference::Answer;

/// A rule in words, and whether it holds.
type Rule = (&'static str, fn(&Graphed) -> bool);

const RULES: [Rule; 7] = [
    (
        "a bad id is 4 at 0 and then a bad period 5 at 0, just there",
        Graphed::has_head,
    ),
    (
        "other refusals are 19 and 21, and at a word or the text's end 7, 8, 22 and 23",
        Graphed::is_refused_somewhere,
    ),
    (
        "too few bytes are 19 at their number, just there",
        Graphed::has_room,
    ),
    (
        "the record of the words is written, and nothing past it",
        Graphed::is_the_record,
    ),
    (
        "what is written is read, and written and mended again",
        Graphed::is_read,
    ),
    (
        "the reference's table is written alike",
        Graphed::is_written_alike,
    ),
    (
        "parted otherwise and with other zeros it is answered alike",
        Graphed::is_spelt_freely,
    ),
];

/// The first rule that the answer breaks.
pub fn broken(call: &Call, answer: &Answer, bytes: &[u8]) -> Option<&'static str> {
    let Call::ReadGraph(graph) = call else {
        return None;
    };
    let graphed = Graphed {
        graph: graph.clone(),
        sketch: Sketch::of(&graph.text),
        answer: *answer,
        bytes: bytes.to_vec(),
    };
    let broken = RULES.into_iter().find(|(_, holds)| !holds(&graphed));
    broken.map(|(rule, _)| rule)
}

/// An answer and the bytes after it, beside the text taken apart.
struct Graphed {
    graph: Graph,
    sketch: Sketch,
    answer: Answer,
    bytes: Vec<u8>,
}

impl Graphed {
    fn has_head(&self) -> bool {
        let is_id = (1..=65_535).contains(&self.graph.id);
        let is_period = (1..=16_777_215).contains(&self.graph.period);
        let head = match (is_id, is_period) {
            (false, _) => Some(refused(4, 0)),
            (true, false) => Some(refused(5, 0)),
            (true, true) => None,
        };
        match head {
            Some(head) => self.answer == head,
            None => !matches!(self.answer.refusal, 4 | 5),
        }
    }

    /// Of 7, 8 and 23 the word is a number, of 23 the first.
    fn is_refused_somewhere(&self) -> bool {
        let place = self.place();
        let word = place.and_then(|at| self.sketch.words.get(at));
        match self.answer.refusal {
            0 | 4 | 5 | 19 => true,
            7 | 8 => word.is_some_and(Word::is_number),
            21 => self.answer.place == 0,
            22 => place.is_some(),
            23 => place == Some(0) && word.is_some_and(Word::is_number),
            _ => false,
        }
    }

    /// Which word a refusal is at, or past all of them the text's end.
    fn place(&self) -> Option<usize> {
        let places = self.sketch.places();
        places.iter().position(|&place| place == self.answer.place)
    }

    /// Beside the answer where there is room for every record.
    fn has_room(&self) -> bool {
        let (roomy, _) = read(&self.graph, &self.graph.text, LONGEST as u64);
        let lent = self.graph.lent;
        let is_short = lent < roomy.value;
        self.answer == if is_short { refused(19, lent) } else { roomy }
    }

    /// After a refusal, that nothing is written.
    fn is_the_record(&self) -> bool {
        let record = match self.answer.refusal {
            0 => self.made(),
            _ => Some(vec![]),
        };
        record.is_some_and(|record| {
            let rest = record.len()..;
            self.answer.value == record.len() as u64
                && self.bytes.starts_with(&record)
                && self.bytes[rest.clone()] == old_bytes(self.graph.lent)[rest]
        })
    }

    /// What has to come of a text that is read.
    fn made(&self) -> Option<Vec<u8>> {
        let count = self.sketch.words.first()?.value()?.checked_add(2)?;
        let tasks = self.sketch.tasks();
        let mut numbers = vec![2, self.graph.id, self.graph.period, count];
        for words in tasks.get(..count as usize)? {
            let values = self.sketch.words[words.clone()].iter().map(Word::value);
            let mut values = values.collect::<Option<Vec<_>>>()?;
            values[3..].sort_unstable();
            numbers.extend(&values[1..]);
        }
        Some(encoded(&numbers))
    }

    /// None after a refusal.
    fn written(&self) -> Option<&[u8]> {
        (self.answer.refusal == 0).then(|| &self.bytes[..self.answer.value as usize])
    }

    fn is_read(&self) -> bool {
        self.written().is_none_or(|record| {
            let again = written::again(record);
            written::refusal(record).is_none()
                && again.is_some_and(|writing| written::gives(&writing, record))
                && mended::gives(record)
        })
    }

    fn is_written_alike(&self) -> bool {
        self.written().is_none_or(|record| {
            let Graph {
                text, id, period, ..
            } = &self.graph;
            let lent = record.len() as u64;
            let table = reference::read_text(text, *id, *period);
            table.is_ok_and(|table| written::gives(&written::of(&table, lent), record))
        })
    }

    fn is_spelt_freely(&self) -> bool {
        SPELLINGS.iter().all(|spelling| self.is_spelt(spelling))
    }

    /// A refusal at a word or at the text's end is there again.
    fn is_spelt(&self, spelling: &Spelling) -> bool {
        let respelt = self.sketch.respelt(spelling);
        let mut expected = self.answer;
        if let (7 | 8 | 22 | 23, Some(at)) = (self.answer.refusal, self.place()) {
            expected.place = respelt.places()[at];
        }
        let (answer, bytes) = read(&self.graph, &respelt.text(), self.graph.lent);
        answer == expected && bytes == self.bytes
    }
}

/// The library's answer, and the bytes after it.
fn read(graph: &Graph, text: &[u8], lent: u64) -> (Answer, Vec<u8>) {
    let mut bytes = old_bytes(lent);
    let answer = ffi::read_graph(text, &mut bytes, graph.id, graph.period);
    (answer, bytes)
}

/// How many texts were read, and how many refused by which number.
#[derive(Default)]
pub struct Tally {
    pub read: u64,
    pub refused: Refused,
}

impl Tally {
    pub fn count(&mut self, call: &Call, answer: &Answer) {
        match (call, answer.refusal) {
            (Call::ReadGraph(_), 0) => self.read += 1,
            (Call::ReadGraph(_), number) => self.refused.count(number),
            _ => (),
        }
    }

    pub fn add(&mut self, other: &Tally) {
        self.read += other.read;
        self.refused.add(&other.refused);
    }
}
