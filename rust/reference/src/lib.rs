//! Document 01, as the requests of document 02 change it, in plain Rust: the
//! thirteen public calls and the printed sheets.
//!
//! Written from the documents alone, but for which loop is shown (the choice
//! is docs/PROTOCOL.md's), so that an answer of the proved library can be held
//! against a second opinion. A refusal leaves everything lent as it was.

#![forbid(unsafe_code)]

mod board;
mod building;
mod check;
mod foreign;
mod graph;
mod judge;
mod mend;
mod plan;
mod record;
mod refusal;
mod ring;
mod row;
mod sheet;
mod timing;
mod write;

pub use building::{building_sheet, Counts};
pub use check::check_sheet;
pub use graph::graph_sheet;
pub use mend::Mending;
pub use plan::PLAN_WORDS;
pub use record::Table;
pub use row::Row;
pub use sheet::sheet;

use board::{allowed_cores, find, fits, free_row, sound, verdict, verdict_to_end, ROWS};
use foreign::Plan;
use mend::mended;
use plan::{fill, lent_words};
use refusal::{Refusal, Rule};
use timing::Timing;
use write::write;

/// What every call returns, mending and the walk through a building with counts
/// beside it. With refusal 0, `value` is the words or bytes written, the row
/// filled or freed, the records walked through, the id of a plan, or 1 for yes and
/// 0 for no; otherwise it is 0. Beside refusal 10, `ring` is the set of a loop's
/// nodes, node k as bit k; else 0.
#[repr(C)]
#[derive(Clone, Copy, Debug, Default, PartialEq, Eq)]
pub struct Answer {
    pub refusal: u64,
    pub place: u64,
    pub value: u64,
    pub ring: u64,
}

impl From<Result<u64, Refusal>> for Answer {
    fn from(result: Result<u64, Refusal>) -> Answer {
        match result {
            Ok(value) => Answer {
                value,
                ..Answer::default()
            },
            Err(refusal) => Answer {
                refusal: refusal.number(),
                place: refusal.place(),
                value: 0,
                ring: refusal.ring(),
            },
        }
    }
}

/// Plans the record's task into the lent words, each step at that dispatch
/// cost; the value is the number of words.
pub fn plan(record: &[u8], words: &mut [u64], cost: u64) -> Answer {
    planned(record, words, cost).into()
}

/// Plans the record's task and puts it on the board, whatever the verdict is
/// then; the value is its row.
pub fn note(record: &[u8], words: &mut [u64], board: &mut [Row], cost: u64) -> Answer {
    noted(record, words, board, cost).into()
}

/// The same, but a task that would make the verdict for that many cores a no
/// is turned away.
pub fn admit(record: &[u8], words: &mut [u64], board: &mut [Row], cores: u64, cost: u64) -> Answer {
    admitted(record, words, board, cores, cost).into()
}

/// Takes a standing task off the board; the value is the row it leaves.
pub fn withdraw(board: &mut [Row], id: u64) -> Answer {
    withdrawn(board, id).into()
}

/// Whether the standing tasks pass the density test on that many cores.
pub fn ask(board: &[Row], cores: u64) -> Answer {
    sound(board)
        .and_then(|rows| verdict(rows, cores))
        .map(u64::from)
        .into()
}

/// Whether they pass the test for steps that, once begun, run to their end:
/// document 000, Theorem 6.
pub fn ask_to_end(board: &[Row], cores: u64) -> Answer {
    sound(board)
        .and_then(|rows| verdict_to_end(rows, cores))
        .map(u64::from)
        .into()
}

/// Writes the record of a table into the lent bytes. Each list has an entry for
/// each node, of the parents a set, node p as bit p; the value is the number of
/// bytes.
pub fn write_record(
    executions: &[u64],
    parents: &[u64],
    bytes: &mut [u8],
    edition: u64,
    id: u64,
    period: u64,
) -> Answer {
    write(executions, parents, bytes, edition, id, period).into()
}

/// Writes the task of a record that is given carelessly into the lent bytes:
/// numbers in shortest form, parents ascending and single. The value is the
/// number of bytes.
pub fn mend(given: &[u8], bytes: &mut [u8]) -> Mending {
    mended(given, bytes).unwrap_or_else(Mending::refused)
}

/// Reads a Standard Task Graph text and writes its record, of edition 2 with
/// that id and period, into the lent bytes. The value is the number of bytes.
pub fn read_graph(text: &[u8], bytes: &mut [u8], id: u64, period: u64) -> Answer {
    graph::written(text, bytes, id, period).into()
}

/// Walks through a building's file of records, each after its length, and plans
/// each alone, every step at that dispatch cost. The value is the number of
/// records.
pub fn building(file: &[u8], cost: u64) -> Counts {
    Counts::of(file, cost)
}

/// Reads a plan record into the lent words, as planning would fill them. The value
/// is the id.
pub fn read_plan(plan: &[u8], words: &mut [u64]) -> Answer {
    plan_read(plan, words).into()
}

/// Writes the record of the plan in these words, under that id, into the lent
/// bytes. The value is the number of bytes.
pub fn write_plan(words: &[u64], bytes: &mut [u8], id: u64) -> Answer {
    foreign::write(words, bytes, id).into()
}

/// Judges a foreign plan of the record's task, each step at that dispatch cost,
/// and fills the lent words with it where it is accepted. The value is the id.
pub fn judge(record: &[u8], plan: &[u8], words: &mut [u64], cost: u64) -> Answer {
    judged(record, plan, words, cost).into()
}

/// What the calls read a record as, or their answer where it is refused. It is
/// none of the calls: what is written can be held against it.
pub fn read(record: &[u8]) -> Result<Table, Answer> {
    Table::read(record).map_err(|refusal| Err(refusal).into())
}

/// The same for a text, which the lent bytes are no part of.
pub fn read_text(text: &[u8], id: u64, period: u64) -> Result<Table, Answer> {
    graph::read(text, id, period).map_err(|refusal| Err(refusal).into())
}

fn planned(record: &[u8], words: &mut [u64], cost: u64) -> Result<u64, Refusal> {
    allowed_cost(cost)?;
    let words = lent_words(words)?;
    let mut table = Table::read(record)?;
    table.pay(cost);
    let timing = Timing::of(&table)?;
    Ok(fill(&table, &timing, words).words)
}

/// Row and id are settled before the first word is written, since 12 and 13
/// must leave the plan untouched too.
fn noted(record: &[u8], words: &mut [u64], board: &mut [Row], cost: u64) -> Result<u64, Refusal> {
    allowed_cost(cost)?;
    let words = lent_words(words)?;
    let rows: &[Row; ROWS] = sound(board)?;
    let mut table = Table::read(record)?;
    table.pay(cost);
    let timing = Timing::of(&table)?;
    let row = free_row(rows, table.id)?;
    board[row] = fill(&table, &timing, words).row;
    Ok(row as u64)
}

/// The verdict wants the task's row, and 20 must leave the plan untouched: it
/// is written elsewhere first.
fn admitted(
    record: &[u8],
    words: &mut [u64],
    board: &mut [Row],
    cores: u64,
    cost: u64,
) -> Result<u64, Refusal> {
    allowed_cost(cost)?;
    let words = lent_words(words)?;
    let mut rows: [Row; ROWS] = *sound(board)?;
    allowed_cores(cores)?;
    let mut table = Table::read(record)?;
    table.pay(cost);
    let timing = Timing::of(&table)?;
    let row = free_row(&rows, table.id)?;
    let mut aside = [0; PLAN_WORDS];
    let written = fill(&table, &timing, &mut aside);
    rows[row] = written.row;
    fits(&rows, cores)?;
    let plan = 0..written.words as usize;
    words[plan.clone()].copy_from_slice(&aside[plan]);
    board[row] = written.row;
    Ok(row as u64)
}

/// Refusal 26.
fn allowed_cost(cost: u64) -> Result<(), Refusal> {
    if cost > Table::LARGEST_COST {
        return Err(Rule::Cost.into());
    }
    Ok(())
}

fn withdrawn(board: &mut [Row], id: u64) -> Result<u64, Refusal> {
    let row = find(sound(board)?, id)?;
    board[row] = Row::default();
    Ok(row as u64)
}

fn plan_read(plan: &[u8], words: &mut [u64]) -> Result<u64, Refusal> {
    let words = lent_words(words)?;
    let plan = Plan::read(plan)?;
    plan.hand_over(words);
    Ok(plan.id)
}

/// The words are tried between the two records.
fn judged(record: &[u8], plan: &[u8], words: &mut [u64], cost: u64) -> Result<u64, Refusal> {
    allowed_cost(cost)?;
    let mut table = Table::read(record)?;
    table.pay(cost);
    let timing = Timing::of(&table)?;
    let words = lent_words(words)?;
    let plan = Plan::read(plan)?;
    judge::judge(&table, &timing, &plan)?;
    plan.hand_over(words);
    Ok(plan.id)
}
