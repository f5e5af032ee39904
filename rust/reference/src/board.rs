//! The board of standing tasks and the verdicts on it.

use std::cmp::Ordering;

use crate::plan::MILLION;
use crate::refusal::{Refusal, Rule};
use crate::row::Row;

pub const ROWS: usize = 16;
const LARGEST_CORES: u64 = 64;

/// Refusal 17; a sound board has 16 rows.
pub fn sound(board: &[Row]) -> Result<&[Row; ROWS], Refusal> {
    match board.try_into() {
        Ok(rows) if all_rows_sound(rows) && no_id_twice(rows) => Ok(rows),
        _ => Err(Rule::UnsoundBoard.into()),
    }
}

fn all_rows_sound(rows: &[Row; ROWS]) -> bool {
    rows.iter().all(Row::is_sound)
}

/// Free rows share the id 0, which isn't a task's.
fn no_id_twice(rows: &[Row; ROWS]) -> bool {
    let mut twice = false;
    for (at, row) in rows.iter().enumerate() {
        for later in &rows[at + 1..] {
            twice |= later.id == row.id && row.id != 0;
        }
    }
    !twice
}

/// The lowest free row for a task with that id; refusals 12, 13.
pub fn free_row(rows: &[Row; ROWS], id: u64) -> Result<usize, Refusal> {
    if rows.iter().any(|row| row.id == id) {
        return Err(Rule::Standing.into());
    }
    rows.iter()
        .position(Row::is_free)
        .ok_or(Rule::BoardFull.into())
}

/// The row where that id stands; refusal 14. A free row's id 0 never stands.
pub fn find(rows: &[Row; ROWS], id: u64) -> Result<usize, Refusal> {
    rows.iter()
        .position(|row| row.id == id && id != 0)
        .ok_or(Rule::NotStanding.into())
}

/// Whether S + (m - 1) x M <= m x 1,000,000.
pub fn verdict(rows: &[Row; ROWS], cores: u64) -> Result<bool, Refusal> {
    allowed_cores(cores)?;
    Ok(load(rows, cores) <= cores * MILLION)
}

/// Whether S + (m - 1) x M + m x r <= m x 1,000,000.
pub fn verdict_to_end(rows: &[Row; ROWS], cores: u64) -> Result<bool, Refusal> {
    allowed_cores(cores)?;
    Ok(load(rows, cores) + cores * overhead(rows) <= cores * MILLION)
}

/// Refusal 20, on a board that has the new task already.
pub fn fits(rows: &[Row; ROWS], cores: u64) -> Result<(), Refusal> {
    match verdict(rows, cores)? {
        true => Ok(()),
        false => Err(Rule::WouldBeNo.into()),
    }
}

/// Refusal 15.
pub fn allowed_cores(cores: u64) -> Result<(), Refusal> {
    if !(1..=LARGEST_CORES).contains(&cores) {
        return Err(Rule::Cores.into());
    }
    Ok(())
}

/// S + (m - 1) x M.
fn load(rows: &[Row; ROWS], cores: u64) -> u64 {
    let sum: u64 = rows.iter().map(|row| row.sum).sum();
    let largest = rows.iter().map(|row| row.largest).fold(0, u64::max);
    sum + (cores - 1) * largest
}

/// r, in millionths rounded up: the longest execution over the shortest
/// deadline, which may be of another task; 0 on an empty board.
fn overhead(rows: &[Row; ROWS]) -> u64 {
    let longest = rows.iter().map(|row| row.longest).fold(0, u64::max);
    let standing = rows.iter().filter(|row| !row.is_free());
    standing.min_by(by_deadline).map_or(0, |row| {
        (longest * row.over * MILLION).div_ceil(row.shortest)
    })
}

/// The order of shortest over Q: a/b against c/d is a x d against c x b, and
/// these take more than 64 bits.
fn by_deadline(one: &&Row, other: &&Row) -> Ordering {
    let product = |a: u64, b: u64| u128::from(a) * u128::from(b);
    let crosswise = product(other.shortest, one.over);
    product(one.shortest, other.over).cmp(&crosswise)
}
