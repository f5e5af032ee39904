//! The text that `plancheck` gives for a task record and a plan record.

use crate::building::next_record;
use crate::foreign::Plan;
use crate::judge::judge;
use crate::plan::PLAN_WORDS;
use crate::record::{Reader, Table};
use crate::refusal::Refusal;
use crate::sheet::{lines, printed};
use crate::timing::Timing;

/// The program looks at no more of its input than this.
const INPUT_LIMIT: usize = 8_192;

/// What `plancheck` prints with this on its standard input, at cost 0.
pub fn check_sheet(input: &[u8]) -> Vec<u8> {
    printed(checked(&input[..input.len().min(INPUT_LIMIT)]))
}

/// The refusals of the input's own shape, then the judge's.
fn checked(input: &[u8]) -> Result<String, Refusal> {
    let mut reader = Reader::of(input);
    let record = next_record(&mut reader)?;
    let plan = next_record(&mut reader)?;
    reader.end()?;
    let table = Table::read(record)?;
    let timing = Timing::of(&table)?;
    let plan = Plan::read(plan)?;
    judge(&table, &timing, &plan)?;
    let mut words = [0; PLAN_WORDS];
    let length = plan.hand_over(&mut words);
    Ok(lines(&table, &timing, &words[..length]))
}
