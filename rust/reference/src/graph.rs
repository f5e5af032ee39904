//! Reading a Standard Task Graph text, from the left, into a table; its record,
//! and the text the printing program gives for it.

use crate::record::Table;
use crate::refusal::{Refusal, Rule};
use crate::sheet::{printed, sheet_of};
use crate::timing::Timing;
use crate::write::write;

/// The one in which a node may run 0, as dummies do.
const EDITION: u64 = 2;

/// One entry and one exit, which the text's count leaves out.
const DUMMIES: u64 = 2;

const MOST_TASKS: u64 = Table::LARGEST_COUNT as u64 - DUMMIES;

/// What stands between words; a tab does not.
const PARTINGS: [u8; 3] = [b' ', b'\n', b'\r'];

const COMMENT: u8 = b'#';

/// The id that the program gives to the task.
const PRINTED_ID: u64 = 1;

/// The program looks at no more of its input than this.
const INPUT_LIMIT: usize = 65_536;

/// Refusals 4 and 5 for the caller's numbers, then 22, 23, 7 and 8 as they are
/// met, then 21.
pub fn read(text: &[u8], id: u64, period: u64) -> Result<Table, Refusal> {
    Graph::read(text, id, period)?.running()
}

/// Refusal 19 for the lent bytes comes last; the value is the record's length.
pub fn written(text: &[u8], bytes: &mut [u8], id: u64, period: u64) -> Result<u64, Refusal> {
    let table = read(text, id, period)?;
    let nodes = ..table.count;
    let (executions, parents) = (&table.executions[nodes], &table.parents[nodes]);
    write(executions, parents, bytes, EDITION, id, period)
}

/// What `graphsheet` prints with this on its standard input, at cost 0.
pub fn graph_sheet(input: &[u8]) -> Vec<u8> {
    printed(lines(input))
}

/// The period is twice the path, which is known only after reading. What is
/// not looked at matters unless a comment comes before it.
fn lines(input: &[u8]) -> Result<String, Refusal> {
    let text = &input[..input.len().min(INPUT_LIMIT)];
    let graph = Graph::read(text, PRINTED_ID, Table::LARGEST_PERIOD);
    let has_comment = graph.as_ref().is_ok_and(|graph| graph.has_comment);
    if text.len() < input.len() && !has_comment {
        return Err(Refusal::at(Rule::Layout, INPUT_LIMIT));
    }
    let mut table = graph?.running()?;
    table.period = 2 * Timing::of(&table)?.path;
    sheet_of(&table)
}

/// A text's table, and whether a comment ended the reading: else the text did.
struct Graph {
    table: Table,
    has_comment: bool,
}

impl Graph {
    fn read(text: &[u8], id: u64, period: u64) -> Result<Graph, Refusal> {
        if !(1..=Table::LARGEST_ID).contains(&id) {
            return Err(Rule::Id.into());
        }
        if !(1..=Table::LARGEST_PERIOD).contains(&period) {
            return Err(Rule::Period.into());
        }
        let mut reader = Reader { text, at: 0 };
        let count = DUMMIES + reader.number()?.up_to(MOST_TASKS, Rule::TaskCount)?;
        let mut table = Table {
            edition: EDITION,
            id,
            period,
            count: count as usize,
            executions: [0; Table::LARGEST_COUNT],
            parents: [0; Table::LARGEST_COUNT],
        };
        for task in 0..table.count {
            reader.task_number(task as u64)?;
            let time = reader.number()?;
            table.executions[task] = time.up_to(Table::LARGEST_EXECUTION, Rule::Execution)?;
            table.parents[task] = reader.predecessors(count)?;
        }
        let has_comment = reader.has_comment()?;
        Ok(Graph { table, has_comment })
    }

    /// Refusal 21.
    fn running(self) -> Result<Table, Refusal> {
        match self.table.executions.iter().all(|&time| time == 0) {
            true => Err(Rule::NothingRuns.into()),
            false => Ok(self.table),
        }
    }
}

/// A word's value, and its first byte.
struct Number {
    value: u64,
    place: usize,
}

impl Number {
    fn up_to(&self, most: u64, rule: Rule) -> Result<u64, Refusal> {
        match self.value <= most {
            true => Ok(self.value),
            false => Err(Refusal::at(rule, self.place)),
        }
    }
}

/// The text and the place of the next byte in it.
struct Reader<'a> {
    text: &'a [u8],
    at: usize,
}

impl<'a> Reader<'a> {
    fn task_number(&mut self, next: u64) -> Result<(), Refusal> {
        let number = self.number()?;
        match number.value == next {
            true => Ok(()),
            false => Err(Refusal::at(Rule::Layout, number.place)),
        }
    }

    /// How many there are, and these in any order, as a set.
    fn predecessors(&mut self, count: u64) -> Result<u64, Refusal> {
        let given = self.number()?.up_to(count, Rule::Parents)?;
        let mut set = 0;
        for _ in 0..given {
            let number = self.number()?;
            let predecessor = 1 << number.up_to(count - 1, Rule::Parents)?;
            if set & predecessor != 0 {
                return Err(Refusal::at(Rule::Parents, number.place));
            }
            set |= predecessor;
        }
        Ok(set)
    }

    /// After the last task: what comes after a comment's first byte is not
    /// looked at.
    fn has_comment(&mut self) -> Result<bool, Refusal> {
        match self.word() {
            None => Ok(false),
            Some((_, word)) if word[0] == COMMENT => Ok(true),
            Some((place, _)) => Err(Refusal::at(Rule::Layout, place)),
        }
    }

    /// The whole word has to be digits before its value is looked at. Of more
    /// digits than 64 bits hold, the largest value is above every limit too.
    fn number(&mut self) -> Result<Number, Refusal> {
        let Some((place, word)) = self.word() else {
            return Err(Refusal::at(Rule::Layout, self.text.len()));
        };
        if !word.iter().all(u8::is_ascii_digit) {
            return Err(Refusal::at(Rule::Layout, place));
        }
        let value = word.iter().fold(0, |value: u64, digit| {
            let digit = u64::from(digit - b'0');
            value.saturating_mul(10).saturating_add(digit)
        });
        Ok(Number { value, place })
    }

    /// Its first byte's place, and the bytes up to the next parting; none where
    /// only partings are left.
    fn word(&mut self) -> Option<(usize, &'a [u8])> {
        let parts = |byte: &u8| PARTINGS.contains(byte);
        let rest = &self.text[self.at..];
        let place = self.at + rest.iter().position(|byte| !parts(byte))?;
        let rest = &self.text[place..];
        let length = rest.iter().position(parts).unwrap_or(rest.len());
        self.at = place + length;
        Some((place, &rest[..length]))
    }
}
