//! What the library answered before it read edition 2, held against what it
//! answers now at cost 0. The reference has no part in this.

use crate::edition1::records;
use reference::{Answer, Row, PLAN_WORDS};
use std::iter;

const STORED: &str = include_str!("../edition1.answers");

const FIRST_LINE: &str = "Records, none of edition 2, and what the library answered to each \
    before it read edition 2: the record, plan's refusal, place, value and ring, and a digest of \
    all that plan and admit wrote and answered.";

/// The file's lines, those of now, and where they differ first; one of the two
/// may end there.
pub struct Changed {
    pub stored: Vec<&'static str>,
    pub now: Vec<String>,
    pub at: usize,
}

/// The number of answers, which are all as they were.
pub fn check() -> Result<usize, Changed> {
    let stored: Vec<&str> = STORED.lines().collect();
    let now = lines();
    let differs = |&at: &usize| stored.get(at).copied() != now.get(at).map(String::as_str);
    match (0..stored.len().max(now.len())).find(differs) {
        None => Ok(now.len() - 1),
        Some(at) => Err(Changed { stored, now, at }),
    }
}

/// Prints such a file, with the answers of the library that is linked in.
pub fn print() {
    lines().iter().for_each(|line| println!("{line}"));
}

fn lines() -> Vec<String> {
    let answers = records().into_iter().map(|record| line(&record));
    iter::once(FIRST_LINE.into()).chain(answers).collect()
}

fn line(record: &[u8]) -> String {
    let mut words = [OLD; PLAN_WORDS + 1];
    let answer = ffi::plan(record, &mut words, 0);
    let Answer {
        refusal,
        place,
        value,
        ring,
    } = answer;
    let digest = digest(words.into_iter().chain(noted(record)));
    format!(
        "{} {refusal} {place} {value} {ring:x} {digest:016x}",
        hex(record)
    )
}

/// What no plan would write.
const OLD: u64 = 0xA5A5_A5A5_A5A5_A5A5;

/// The answer, the words and the rows of noting on an empty board, which was
/// called admitting when the answers were stored; of a row the figures that it
/// had then.
fn noted(record: &[u8]) -> Vec<u64> {
    let mut words = [OLD; PLAN_WORDS + 1];
    let mut board = [Row::default(); 16];
    let answer = ffi::note(record, &mut words, &mut board, 0);
    let mut all = vec![answer.refusal, answer.place, answer.value, answer.ring];
    all.extend(words);
    for row in board {
        all.extend([row.id, row.nodes, row.sum, row.largest]);
    }
    all
}

/// Each step loses nothing, so one changed word always changes the digest.
fn digest(words: impl Iterator<Item = u64>) -> u64 {
    words.fold(0, |digest: u64, word| {
        let mixed = (digest ^ word).wrapping_mul(0x9E37_79B9_7F4A_7C15);
        mixed ^ mixed >> 32
    })
}

/// An empty record is a dash.
fn hex(record: &[u8]) -> String {
    match record {
        [] => "-".into(),
        _ => record.iter().map(|byte| format!("{byte:02X}")).collect(),
    }
}
