//! A plan's sheet, and the text the printing program gives for a record.

use std::fmt::Write;

use crate::plan::{fill, HEAD, PLAN_WORDS};
use crate::record::Table;
use crate::refusal::Refusal;
use crate::timing::Timing;

/// The program looks at no more of its input than this.
const INPUT_LIMIT: usize = 8_192;

/// What `plansheet` prints with this on its standard input, at cost 0.
pub fn sheet(input: &[u8]) -> Vec<u8> {
    let record = &input[..input.len().min(INPUT_LIMIT)];
    printed(Table::read(record).and_then(|table| sheet_of(&table)))
}

/// A refusal is one line.
pub fn printed(sheet: Result<String, Refusal>) -> Vec<u8> {
    let text = match sheet {
        Ok(text) => text,
        Err(refusal) => format!("refused {} at {}\n", refusal.number(), refusal.place()),
    };
    text.into_bytes()
}

/// Refusals 10 and 11.
pub fn sheet_of(table: &Table) -> Result<String, Refusal> {
    let timing = Timing::of(table)?;
    let mut words = [0; PLAN_WORDS];
    let written = fill(table, &timing, &mut words).words;
    Ok(lines(table, &timing, &words[..written as usize]))
}

/// Of a plan's words, whoever made them.
pub fn lines(table: &Table, timing: &Timing, words: &[u64]) -> String {
    let mut text = format!(
        "task {} period {} work {} path {} over {}\n",
        table.id, table.period, timing.work, timing.path, words[0]
    );
    let nodes_at = HEAD + 3 * timing.segments().len();
    let names = ["seg", "threads", "length", "deadline"];
    triples(&mut text, names, &words[HEAD..nodes_at]);
    let names = ["node", "offset", "deadline", "density"];
    triples(&mut text, names, &words[nodes_at..]);
    let densities = words[nodes_at..].chunks_exact(3).map(|node| node[2]);
    let sum: u64 = densities.clone().sum();
    let largest = densities.max().unwrap_or(0);
    text + &format!("sum {sum} max {largest}\n")
}

/// One line for each triple, numbered from 0.
fn triples(text: &mut String, [kind, first, second, third]: [&str; 4], words: &[u64]) {
    for (number, triple) in words.chunks_exact(3).enumerate() {
        let [a, b, c] = [triple[0], triple[1], triple[2]];
        // Writing to a String cannot fail.
        let _ = writeln!(text, "{kind} {number} {first} {a} {second} {b} {third} {c}");
    }
}
