//! Plan records to be read, and plans to be written: cut, with other bytes, forms,
//! counts and numbers, and by chance.

use crate::case::Call;
use crate::foreign::{Base, Foreign, PlanWriting, LARGEST_NUMBER};
use crate::lists::room;
use crate::random::Random;
use crate::records::{half_joins, plain_task, spoilt, with_form, WORKED};
use crate::tasks::random_task;
use ffi::task::{chain, encoded, fork, number, stretched};
use reference::PLAN_WORDS;

/// Where the segment count stands among a plan record's numbers.
pub const SEGMENTS_AT: usize = 2;

/// Own plans of document 01's tasks, one of them with a join.
pub fn worked() -> Vec<Foreign> {
    let own = |record: &&[u8]| Some(Base::drawn(record, 0)?.own);
    WORKED.iter().filter_map(own).collect()
}

/// Those, the least there is, and one of numbers that are as large as can be.
fn short() -> Vec<Foreign> {
    let mut plans = worked();
    plans.extend([Foreign::of(1, 1, 0), Foreign::of(1, 2, LARGEST_NUMBER)]);
    plans
}

/// Own plans of 64 nodes, and the longest there is.
fn long() -> Vec<Foreign> {
    let tasks = [plain_task(chain(64)), half_joins(fork(64))];
    let own = tasks.map(|task| Base::drawn(&task.record(), 0).expect("it is planned").own);
    let [chain, fork] = own;
    vec![chain, fork, Foreign::of(64, 64, LARGEST_NUMBER)]
}

fn read(record: Vec<u8>) -> Call {
    Call::ReadPlan(record)
}

/// Up to every byte, and with some more.
pub fn cuts(_: &mut Random) -> Vec<Call> {
    let mut calls = Vec::new();
    for plan in short().into_iter().chain(long()) {
        let record = plan.record();
        let cut = |length| read(record[..length].to_vec());
        calls.extend((0..=record.len()).map(cut));
        for more in [&[0][..], &[0x80], &[0xFF; 9], &[0; 500]] {
            calls.push(read([&record, more].concat()));
        }
    }
    calls
}

/// Each byte replaced in turn.
pub fn bytes(_: &mut Random) -> Vec<Call> {
    let mut calls = Vec::new();
    for plan in short() {
        let record = plan.record();
        for at in 0..record.len() {
            let byte = record[at];
            let around = [byte ^ 0x80, byte.wrapping_add(1), byte.wrapping_sub(1)];
            for byte in [0, 1, 0x7F, 0x80, 0xFF].into_iter().chain(around) {
                let mut changed = record.clone();
                changed[at] = byte;
                calls.push(read(changed));
            }
        }
    }
    calls
}

/// Each number in turn in other forms; the record goes on, or it ends there.
pub fn forms(_: &mut Random) -> Vec<Call> {
    let mut calls = Vec::new();
    let worked = worked();
    for plan in [&worked[3], &worked[4], &Foreign::of(1, 1, 0)] {
        let numbers = plan.numbers();
        for at in 0..numbers.len() {
            for form in bad_forms(numbers[at]) {
                let record = with_form(&numbers, at, &form);
                let end = encoded(&numbers[..at]).len() + form.len();
                calls.extend([read(record[..end].to_vec()), read(record)]);
            }
        }
    }
    calls
}

/// Padded up to eleven bytes, too long, and cut.
fn bad_forms(value: u64) -> Vec<Vec<u8>> {
    let longer = number(value).len() + 1..=11;
    let mut forms: Vec<Vec<u8>> = longer.map(|bytes| stretched(value, bytes)).collect();
    forms.extend([9, 10].map(|bytes| stretched(0, bytes)));
    for length in [1, 4, 7, 8, 9, 10] {
        forms.extend([vec![0x80; length], vec![0xFF; length]]);
    }
    forms
}

/// Around every length of form, and small ones.
fn numbers_around() -> Vec<u64> {
    let limits = (1..=9).map(|group| 1u64 << (7 * group));
    let around = |limit: u64| [limit - 1, limit, limit + 1];
    let mut numbers: Vec<u64> = limits.flat_map(around).collect();
    numbers.extend([0, 1, 2, 63, 64, 65, 66, 1 << 32 | 1, u64::MAX]);
    numbers
}

/// Each number in turn replaced; the counts then aren't those of the lists.
pub fn numbers(_: &mut Random) -> Vec<Call> {
    let mut calls = Vec::new();
    let worked = worked();
    for plan in [&worked[3], &worked[4], &Foreign::of(1, 1, 0)] {
        for at in 0..plan.numbers().len() {
            for value in numbers_around() {
                let mut numbers = plan.numbers();
                numbers[at] = value;
                calls.push(read(encoded(&numbers)));
            }
        }
    }
    calls
}

/// Lists of as many as their counts say, from none to more than 64.
pub fn counts(_: &mut Random) -> Vec<Call> {
    let some = [0, 1, 2, 3, 32, 63, 64, 65, 66, 128];
    let mut calls = Vec::new();
    for segments in some {
        for nodes in some {
            for value in [0, 1, LARGEST_NUMBER] {
                let record = Foreign::of(segments, nodes, value).record();
                let followed = [&record[..], &[0]].concat();
                let cut = record[..record.len() - 1].to_vec();
                calls.extend([record, followed, cut].map(read));
            }
        }
    }
    calls
}

/// Any plan record. Half of them don't arrive as they were.
pub fn any_reading(random: &mut Random) -> Call {
    let plan = any_plan(random);
    read(sent(random, &plan))
}

/// An own plan, or one of numbers by chance.
fn any_plan(random: &mut Random) -> Foreign {
    let own = Base::drawn(&random_task(random, 0).record(), 0);
    match own {
        Some(base) if random.one_in(2) => base.own,
        _ => plan_by_chance(random),
    }
}

fn plan_by_chance(random: &mut Random) -> Foreign {
    let most = random.pick(&[2, 4, 64]);
    let [segments, nodes] = [0; 2].map(|_| random.between(1, most) as usize);
    let mut plan = Foreign::of(segments, nodes, 0);
    let bits = random.pick(&[3, 8, 24, 63]);
    let mut any = |number: &mut u64| *number = random.number() >> (64 - bits);
    any(&mut plan.id);
    any(&mut plan.over);
    for list in [&mut plan.segments, &mut plan.nodes] {
        list.as_flattened_mut().iter_mut().for_each(&mut any);
    }
    plan
}

/// A plan's record, half of the time damaged.
pub fn sent(random: &mut Random, plan: &Foreign) -> Vec<u8> {
    let numbers = plan.numbers();
    let at = random.index(numbers.len());
    match random.below(6) {
        0 => spoilt(random, plan.record()),
        1 => {
            let forms = bad_forms(numbers[at]);
            with_form(&numbers, at, &forms[random.index(forms.len())])
        }
        2 => {
            let mut numbers = numbers;
            let at = random.pick(&[SEGMENTS_AT, 3 + 3 * plan.segments.len(), at]);
            numbers[at] = random.pick(&numbers_around());
            encoded(&numbers)
        }
        _ => plan.record(),
    }
}

/// Into about as many bytes as it takes; words past the plan's are old ones.
fn writing(random: &mut Random, plan: &Foreign) -> PlanWriting {
    let length = plan.record().len() as u64;
    let mut words = plan.words();
    words.resize(PLAN_WORDS.max(words.len()), u64::MAX);
    PlanWriting {
        words,
        id: plan.id,
        lent: room(random, length),
    }
}

/// The id and each word in turn, those past the plan's too, at and past their
/// limits.
pub fn limits_to_write(random: &mut Random) -> Vec<PlanWriting> {
    let mut writings = Vec::new();
    let worked = worked();
    for plan in [&worked[3], &worked[4], &Foreign::of(1, 1, 0)] {
        for value in numbers_around().into_iter().chain([1 << 63, 1 << 63 | 1]) {
            writings.push(PlanWriting {
                id: value,
                ..writing(random, plan)
            });
            for at in 0..plan.words().len() + 2 {
                let mut changed = writing(random, plan);
                changed.words[at] = value;
                writings.push(changed);
            }
        }
    }
    writings
}

/// Both counts together, with numbers that are small, large and too large.
pub fn counts_to_write(random: &mut Random) -> Vec<PlanWriting> {
    let counts = [0, 1, 2, 63, 64, 65, 66, 128, 1 << 32 | 1, 1 << 63, u64::MAX];
    let mut writings = Vec::new();
    for segments in counts {
        for nodes in counts {
            for value in [0, LARGEST_NUMBER, 1 << 63] {
                let mut changed = writing(random, &Foreign::of(64, 64, value));
                changed.words[1] = segments;
                changed.words[2] = nodes;
                changed.id = random.pick(&[0, 1, value]);
                writings.push(changed);
            }
        }
    }
    writings
}

/// Bytes of every number up to the record's and a little more, and words of many.
pub fn lengths_to_write(random: &mut Random) -> Vec<PlanWriting> {
    let mut writings = Vec::new();
    for plan in short() {
        let whole = writing(random, &plan);
        let length = plan.record().len() as u64;
        writings.extend((0..length + 9).map(|lent| PlanWriting {
            lent,
            ..whole.clone()
        }));
        for many in [0, 1, 2, 3, 21, 200, 385, 386, 387, 388, 400, 2_000] {
            let mut changed = writing(random, &plan);
            changed.words.resize(many, 1 << 63);
            writings.push(changed);
        }
    }
    for plan in long() {
        let length = plan.record().len() as u64;
        let ends = [0, length - 1, length, length + 1];
        writings.extend(ends.map(|lent| PlanWriting {
            lent,
            ..writing(random, &plan)
        }));
    }
    writings
}

/// Any plan; a third of them have a number changed, or two, and a few too few
/// words.
pub fn any_plan_writing(random: &mut Random) -> PlanWriting {
    let plan = any_plan(random);
    let mut writing = writing(random, &plan);
    for _ in 0..random.pick(&[0, 0, 0, 0, 1, 2]) {
        let value = random.pick(&numbers_around());
        let any = random.index(plan.words().len() + 1);
        match random.pick(&[0, 1, 2, any, any, any]) {
            at if at < plan.words().len() => writing.words[at] = value,
            _ => writing.id = value,
        }
    }
    if random.one_in(16) {
        writing.words.truncate(random.pick(&[0, 3, 386]));
    }
    writing
}
