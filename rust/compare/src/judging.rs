//! Tasks and plans to be judged: our own, of other shares, with words changed, of
//! other tasks, refused for one thing and for several, and by chance.

use crate::case::{Call, Case};
use crate::chance::{any_cost, any_record, old_words};
use crate::costs::{ALLOWED, COSTS, RECORDS};
use crate::foreign::{Base, Foreign, LARGEST_NUMBER};
use crate::random::Random;
use crate::recording::sent;
use crate::records::{half_joins, plain_task, WORKED};
use crate::tasks::{random_task, task_of};
use ffi::task::{chain, dense, encoded, fork};
use reference::PLAN_WORDS;

fn judge(record: &[u8], plan: &Foreign, cost: u64) -> Call {
    Call::Judge {
        record: record.to_vec(),
        plan: plan.record(),
        cost,
    }
}

/// A record that is planned at some cost, and its own plan there.
struct Own {
    record: Vec<u8>,
    cost: u64,
    base: Base,
}

impl Own {
    fn of(record: Vec<u8>, cost: u64) -> Option<Own> {
        let base = Base::drawn(&record, cost)?;
        Some(Own { record, cost, base })
    }

    fn judge(&self, plan: &Foreign) -> Call {
        judge(&self.record, plan, self.cost)
    }
}

/// Document 01's tasks and others of a few nodes, with joins and without, at each
/// cost at which they are planned.
fn short() -> Vec<Own> {
    let mut records: Vec<Vec<u8>> = WORKED.iter().map(|record| record.to_vec()).collect();
    let tasks = [
        plain_task(fork(5)),
        half_joins(fork(6)),
        half_joins(chain(5)),
    ];
    records.extend(tasks.map(|task| task.record()));
    let mut owns = Vec::new();
    for record in records {
        owns.extend(ALLOWED.map(|cost| Own::of(record.clone(), cost)));
    }
    owns.into_iter().flatten().collect()
}

/// 64 nodes of each shape.
fn long() -> Vec<Own> {
    let mut tasks: Vec<_> = [chain(64), fork(64), dense(64), vec![vec![]; 64]]
        .map(plain_task)
        .into();
    tasks.push(half_joins(chain(64)));
    let own = tasks.into_iter().map(|task| Own::of(task.record(), 255));
    own.flatten().collect()
}

/// Our own plans, at the cost they are made for and at others.
pub fn own_plans(random: &mut Random) -> Vec<Call> {
    let mut owns = short();
    owns.extend(long());
    for cost in (0..=255).cycle().take(2_000) {
        let count = random.pick(&[1, 2, 3, 6, 12, 64]);
        owns.extend(Own::of(task_of(random, count, cost).record(), cost));
    }
    let mut calls = Vec::new();
    for own in owns {
        calls.push(own.judge(&own.base.own));
        let other = random.pick(&[own.cost ^ 1, 0, 255, 256, u64::MAX]);
        calls.push(judge(&own.record, &own.base.own, other));
    }
    calls
}

/// Up to every byte of the plan, and with some more.
pub fn cuts(_: &mut Random) -> Vec<Call> {
    let mut calls = Vec::new();
    for Own { record, cost, base } in short() {
        let whole = base.own.record();
        let cut = |length| whole[..length].to_vec();
        let mut plans: Vec<Vec<u8>> = (0..whole.len()).map(cut).collect();
        plans.extend([&[0][..], &[0x80]].map(|more| [&whole, more].concat()));
        calls.extend(plans.into_iter().map(|plan| Call::Judge {
            record: record.clone(),
            plan,
            cost,
        }));
    }
    calls
}

/// Each number of a plan in turn replaced: next to what it was, none, twice, as
/// large as can be, and as another number of its list.
pub fn changed_numbers(_: &mut Random) -> Vec<Call> {
    let mut calls = Vec::new();
    for own in short() {
        for at in 0..own.base.own.numbers().len() {
            for value in values(&own.base.own, at) {
                calls.push(changed(&own, &[(at, value)]));
            }
        }
    }
    for own in long() {
        for at in 0..own.base.own.numbers().len() {
            let one_more = own.base.own.numbers()[at] + 1;
            calls.push(changed(&own, &[(at, one_more)]));
        }
    }
    calls
}

fn values(plan: &Foreign, at: usize) -> Vec<u64> {
    let numbers = plan.numbers();
    let value = numbers[at];
    let other = numbers[at.max(3) - 3];
    let mut values = vec![value + 1, value.wrapping_sub(1), 0, 2 * value, other];
    values.push(LARGEST_NUMBER);
    values.retain(|&changed| changed != value && changed <= LARGEST_NUMBER);
    values.dedup();
    values
}

/// The plan's record has these numbers in place of its own, also where a count
/// isn't that of its list any more.
fn changed(own: &Own, changes: &[(usize, u64)]) -> Call {
    let mut numbers = own.base.own.numbers();
    for &(at, value) in changes {
        numbers[at] = value;
    }
    Call::Judge {
        record: own.record.clone(),
        plan: encoded(&numbers),
        cost: own.cost,
    }
}

/// Every two numbers of a few plans one more than they were.
pub fn two_changes(_: &mut Random) -> Vec<Call> {
    let mut calls = Vec::new();
    for record in [WORKED[4], WORKED[5], WORKED[14]] {
        let own = Own::of(record.to_vec(), 0).expect("it is planned");
        let numbers = own.base.own.numbers();
        for later in 0..numbers.len() {
            for earlier in 0..later {
                let one_more = |at: usize| (at, numbers[at] + 1);
                calls.push(changed(&own, &[one_more(earlier), one_more(later)]));
            }
        }
    }
    calls
}

/// Time moved from each segment to the next and to the first, so that rules 6 and
/// 7 just hold and just don't, over Q and over multiples of it.
pub fn other_shares(_: &mut Random) -> Vec<Call> {
    let mut calls = Vec::new();
    for own in short() {
        for times in [1, 2, 3, 1_000] {
            calls.extend(edges(&own, times));
        }
        calls.extend(scales(&own));
    }
    calls
}

fn edges(own: &Own, times: u64) -> Vec<Call> {
    let (over, all) = own.base.scaled(times);
    let mut calls = Vec::new();
    for from in 0..all.len() {
        for to in [0, (from + 1) % all.len()] {
            for left in least(own, over, from) {
                let mut numerators = all.clone();
                let moved = numerators[from].saturating_sub(left);
                numerators[from] -= moved;
                numerators[to] += moved;
                calls.push(own.judge(&own.base.shared(over, &numerators)));
            }
        }
    }
    calls
}

/// A segment's least numerator by rule 7, and by rule 6 for a node that runs in it
/// alone; one less, one more, and none.
fn least(own: &Own, over: u64, segment: usize) -> Vec<u64> {
    let [threads, length, _] = own.base.own.segments[segment];
    let dense = u128::from(threads * length * over) * u128::from(own.base.period);
    let seven = dense.div_ceil(2 * u128::from(own.base.work())) as u64;
    let six = (length * over).div_ceil(2);
    let mut values = vec![0];
    for edge in [six, seven] {
        values.extend([edge.saturating_sub(1), edge, edge + 1]);
    }
    values
}

/// The same fractions over other whole numbers, up to the largest Q and past it.
fn scales(own: &Own) -> Vec<Call> {
    let most = 8_421_120 / own.base.own.over;
    let scaled = |times| {
        let (over, numerators) = own.base.scaled(times);
        own.judge(&own.base.shared(over, &numerators))
    };
    let times = [2, most.max(1) - 1, most, most + 1, 1_000_000];
    times.map(scaled).into()
}

/// Sums that are right but for 2^64 and less.
pub fn large_sums(_: &mut Random) -> Vec<Call> {
    let mut calls = Vec::new();
    for own in short().iter().chain(&long()) {
        let count = own.base.own.segments.len();
        for excess in [1u128 << 64, 1 << 63, 1 << 32] {
            let mut plan = own.base.own.clone();
            let mut left = excess;
            for segment in plan.segments.iter_mut() {
                let part = left.min(u128::from(LARGEST_NUMBER - segment[2]));
                let part = part.min(excess.div_ceil(count as u128));
                segment[2] += part as u64;
                left -= part;
            }
            calls.push(own.judge(&plan));
        }
    }
    calls
}

/// Every two tasks, the plan of one for the other, under its own id and the other's.
pub fn other_tasks(_: &mut Random) -> Vec<Call> {
    let owns = short();
    let mut calls = Vec::new();
    for one in &owns {
        for other in &owns {
            let mut plan = other.base.own.clone();
            calls.push(one.judge(&plan));
            plan.id = one.base.own.id;
            calls.push(one.judge(&plan));
        }
    }
    calls
}

/// Each refusal of a task beside each of a plan, with words and costs that are
/// refused and that are not.
pub fn refusals(random: &mut Random) -> Vec<Case> {
    let mut cases = Vec::new();
    for lent in [0, 386, 387, 388] {
        for record in RECORDS {
            let calls = COSTS.into_iter().flat_map(|cost| {
                let plans = plans(record, cost).into_iter();
                plans.map(move |plan| Call::Judge {
                    record: record.to_vec(),
                    plan,
                    cost,
                })
            });
            cases.push(Case {
                words: old_words(random, lent),
                board: vec![],
                calls: calls.collect(),
            });
        }
    }
    cases
}

/// One for each refusal, and one that is accepted where the task is.
fn plans(record: &[u8], cost: u64) -> Vec<Vec<u8>> {
    let own = Base::drawn(record, cost).map_or(Foreign::of(1, 1, 7), |base| base.own);
    let mut other = own.clone();
    other.id += 1;
    let mut broken = own.clone();
    broken.over = 0;
    let whole = own.record();
    vec![
        vec![],
        vec![0xFF; 9],
        vec![0x80, 0],
        vec![7, 1, 0],
        [&whole[..], &[0]].concat(),
        other.record(),
        broken.record(),
        whole,
    ]
}

/// Any task, and any plan made from its own. Some arrive damaged.
pub fn any_judging(random: &mut Random) -> Call {
    let cost = any_cost(random);
    let record = random_task(random, cost).record();
    let Some(base) = Base::drawn(&record, cost) else {
        let plan = Foreign::of(1, 1, 7).record();
        return Call::Judge { record, plan, cost };
    };
    let mut plan = moved(random, &base);
    let record = match random.one_in(12) {
        true => any_record(random, cost),
        false => record,
    };
    if random.one_in(3) {
        change(random, &mut plan);
    }
    let plan = match random.one_in(4) {
        true => sent(random, &plan),
        false => plan.record(),
    };
    Call::Judge { record, plan, cost }
}

/// Over a multiple of Q, with time moved between segments, often none.
fn moved(random: &mut Random, base: &Base) -> Foreign {
    let times = random.pick(&[1, 1, 1, 2, 7]);
    let (over, mut numerators) = base.scaled(times);
    for _ in 0..random.pick(&[0, 0, 1, 1, 2, 5]) {
        let [from, to] = [0; 2].map(|_| random.index(numerators.len()));
        let most = numerators[from] / random.pick(&[1, 2, 4, 16]);
        let moved = random.between(0, most);
        numerators[from] -= moved;
        numerators[to] += moved;
    }
    base.shared(over, &numerators)
}

/// One of its numbers by a little or by much.
fn change(random: &mut Random, plan: &mut Foreign) {
    let any = random.number() >> 1;
    let list = match random.one_in(2) {
        true => &mut plan.segments,
        false => &mut plan.nodes,
    };
    let at = random.index(3 * list.len());
    let number = match random.below(12) {
        0 => &mut plan.id,
        1 => &mut plan.over,
        _ => &mut list.as_flattened_mut()[at],
    };
    let value = *number;
    *number = random.pick(&[value + 1, value.saturating_sub(1), value / 2, 0, any]);
}

/// Words of many numbers, each for plans that are read and judged.
pub fn word_buffers(random: &mut Random) -> Vec<Case> {
    let mut cases = Vec::new();
    for lent in [0, 1, 3, 200, 385, PLAN_WORDS - 1, PLAN_WORDS, 388, 500] {
        for _ in 0..60 {
            let call = any_judging(random);
            let Call::Judge { plan, .. } = &call else {
                continue;
            };
            cases.push(Case {
                words: old_words(random, lent),
                board: vec![],
                calls: vec![Call::ReadPlan(plan.clone()), call],
            });
        }
    }
    cases
}
