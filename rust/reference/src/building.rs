//! A file of records, walked from the left: each is planned alone, and counted.

use crate::plan::{fill, heavy_segments, MILLION, PLAN_WORDS};
use crate::record::{Reader, Table};
use crate::refusal::{Refusal, Rule};
use crate::timing::Timing;
use crate::{allowed_cost, Answer};

const LARGEST_FILE: usize = 1_048_576;

/// One more than the last refusal number.
const NUMBERS: usize = 29;

/// What the walk returns: the answer, and counts over the records up to where it
/// ended, by a refusal or at the file's end. From the nodes on, they are over the
/// accepted records alone.
#[repr(C)]
#[derive(Clone, Copy, Debug, Default, PartialEq, Eq)]
pub struct Counts {
    pub answer: Answer,
    pub records: u64,
    pub accepted: u64,
    /// At each refusal number, the records that planning refuses by it.
    pub refused: [u64; NUMBERS],
    /// Joins included.
    pub nodes: u64,
    pub segments: u64,
    /// Cost included.
    pub work: u64,
    pub heavy: u64,
    pub light: u64,
    /// Tasks with a density above one.
    pub dense: u64,
}

impl Counts {
    pub(crate) fn of(file: &[u8], cost: u64) -> Counts {
        let mut counts = Counts::default();
        counts.answer = counts.walk(file, cost).into();
        counts
    }

    /// Refusals 26 and 27, before anything is counted, then those that end the
    /// walk; the value is the number of records.
    fn walk(&mut self, file: &[u8], cost: u64) -> Result<u64, Refusal> {
        allowed_cost(cost)?;
        if file.len() > LARGEST_FILE {
            return Err(Rule::LongFile.into());
        }
        let mut reader = Reader::of(file);
        let mut words = [0; PLAN_WORDS];
        while !reader.is_at_end() {
            let record = next_record(&mut reader)?;
            self.records += 1;
            match self.count(record, &mut words, cost) {
                Ok(()) => self.accepted += 1,
                Err(refusal) => self.refused[refusal.number() as usize] += 1,
            }
        }
        Ok(self.records)
    }

    /// What is counted of a record that is accepted; otherwise its refusal.
    fn count(
        &mut self,
        record: &[u8],
        words: &mut [u64; PLAN_WORDS],
        cost: u64,
    ) -> Result<(), Refusal> {
        let mut table = Table::read(record)?;
        table.pay(cost);
        let timing = Timing::of(&table)?;
        let row = fill(&table, &timing, words).row;
        let segments = timing.segments().len() as u64;
        let heavy = heavy_segments(table.period, &timing);
        self.nodes += table.count as u64;
        self.segments += segments;
        self.work += timing.work;
        self.heavy += heavy;
        self.light += segments - heavy;
        // Rounded up or not, it is above one alike.
        self.dense += u64::from(row.largest > MILLION);
        Ok(())
    }
}

/// The program looks at no more of its input than this.
const INPUT_LIMIT: usize = 65_536;

/// What `buildingsheet` prints with this on its standard input, at cost 0.
pub fn building_sheet(input: &[u8]) -> Vec<u8> {
    let file = &input[..input.len().min(INPUT_LIMIT)];
    let counts = Counts::of(file, 0);
    let mut text = format!("records {}\naccepted {}\n", counts.records, counts.accepted);
    for (number, many) in counts.refused.into_iter().enumerate() {
        if many > 0 {
            text += &format!("refused {number} count {many}\n");
        }
    }
    for (name, count) in [
        ("nodes", counts.nodes),
        ("segments", counts.segments),
        ("work", counts.work),
        ("heavy", counts.heavy),
        ("light", counts.light),
        ("dense", counts.dense),
    ] {
        text += &format!("{name} {count}\n");
    }
    let Answer { refusal, place, .. } = counts.answer;
    if refusal != 0 {
        text += &format!("ended {refusal} at {place}\n");
    }
    text.into_bytes()
}

/// The part of the file that the next record occupies. Refusals 1, 2 and 18 are
/// at the first byte of its length, and 1 for a record that runs past the file's
/// end is there.
pub fn next_record<'a>(reader: &mut Reader<'a>) -> Result<&'a [u8], Refusal> {
    let place = reader.place();
    let length = reader.number();
    let length = length.map_err(|refusal| refusal.moved(place))?;
    reader.part(length as usize)
}
