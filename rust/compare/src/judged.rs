//! What request j asks of judging, looked at in the library's answers by
//! themselves: the rules are tried here as well, on what its own plan says of the
//! task; and its own plans, written, have to pass.

use crate::case::Call;
use crate::draft::Draft;
use crate::foreign::{Base, Foreign};
use crate::recorded::accepted;
use crate::refused::Refused;
use crate::writing::old_bytes;
use crate::written::refused;
use reference::{Answer, PLAN_WORDS};

const TASK: &str = "what planning refuses, but by 16, is refused likewise";
const WORDS: &str = "fewer than 387 words are 16 at 0, after the task and before the plan";
const PLAN: &str = "what the plan record taken apart is refused for, it is refused for";
const OTHER: &str = "another id or node count than the task's is 24 at 0";
const RULE: &str = "25 tells the first rule that is broken, just where one is";
const LEFT: &str = "what is accepted leaves the words that reading leaves";
const OWN: &str = "a plan of its own is written and then accepted as it was";

/// The first rule that the answer breaks. The words are those that were lent,
/// before the call and after it.
pub fn broken(call: &Call, answer: &Answer, words: [&[u64]; 2]) -> Option<&'static str> {
    match call {
        Call::Judge { record, plan, cost } => broken_judging(record, plan, *cost, answer, words),
        Call::Plan(record, cost) if answer.refusal == 0 => {
            let plan = words[1].get(..answer.value as usize);
            let passes = plan.and_then(|plan| passes(record, *cost, plan));
            (passes != Some(true)).then_some(OWN)
        }
        _ => None,
    }
}

fn broken_judging(
    record: &[u8],
    plan: &[u8],
    cost: u64,
    answer: &Answer,
    [before, after]: [&[u64]; 2],
) -> Option<&'static str> {
    let (expected, rule) = expected(record, plan, cost, before.len())?;
    if *answer != expected {
        return Some(rule);
    }
    let mut read = before.to_vec();
    if answer.refusal == 0 {
        ffi::read_plan(plan, &mut read);
    }
    (after != read).then_some(LEFT)
}

/// What has to be answered with so many words, and by which rule. None where the
/// library's plan of the task is none, which planning shows.
fn expected(record: &[u8], plan: &[u8], cost: u64, lent: usize) -> Option<(Answer, &'static str)> {
    let planned = ffi::plan(record, &mut [0; PLAN_WORDS], cost);
    if planned.refusal != 0 {
        return Some((planned, TASK));
    }
    if lent < PLAN_WORDS {
        return Some((refused(16, 0), WORDS));
    }
    let foreign = match Foreign::read(plan) {
        Err(refusal) => return Some((refusal, PLAN)),
        Ok(foreign) => foreign,
    };
    let base = Base::of(ffi::plan, record, cost)?;
    if foreign.id != base.own.id || foreign.nodes.len() != base.own.nodes.len() {
        return Some((refused(24, 0), OTHER));
    }
    let answer = match base.first_broken(&foreign) {
        Some(rule) => refused(25, rule),
        None => accepted(foreign.id),
    };
    Some((answer, RULE))
}

/// Whether the library takes its own plan of that record; None where it is none.
fn passes(record: &[u8], cost: u64, plan: &[u64]) -> Option<bool> {
    let id = Draft::read(record)?.id.value;
    let made = Foreign::of_words(id, plan)?.record();
    let mut words = [0; PLAN_WORDS];
    words[..plan.len()].copy_from_slice(plan);
    let mut bytes = old_bytes(made.len() as u64);
    let written = ffi::write_plan(&words, &mut bytes, id);
    let mut judged = [0; PLAN_WORDS];
    let passes = written == accepted(made.len() as u64)
        && bytes == made
        && ffi::judge(record, &bytes, &mut judged, cost) == accepted(id)
        && judged == words;
    Some(passes)
}

/// How many plans were accepted, how many refused by which number, and which rules
/// were broken in those by 25; and how many own plans passed.
#[derive(Default)]
pub struct Tally {
    pub accepted: u64,
    pub refused: Refused,
    pub rules: Refused,
    pub own: u64,
}

impl Tally {
    pub fn count(&mut self, call: &Call, answer: &Answer) {
        match (call, answer.refusal) {
            (Call::Plan(..), 0) => self.own += 1,
            (Call::Judge { .. }, 0) => self.accepted += 1,
            (Call::Judge { .. }, number) => {
                self.refused.count(number);
                if number == 25 {
                    self.rules.count(answer.place);
                }
            }
            _ => (),
        }
    }

    pub fn add(&mut self, other: &Tally) {
        self.accepted += other.accepted;
        self.refused.add(&other.refused);
        self.rules.add(&other.rules);
        self.own += other.own;
    }
}
