//! Makes a differing case as small as greedy steps can, each of which has to
//! leave a difference.

use crate::case::{difference, Call, Case};
use crate::draft::Draft;
use crate::foreign::{Base, Foreign, PlanWriting, Triples};
use crate::graph::Graph;
use crate::parts::Parts;
use crate::sketch::Sketch;
use crate::writing::Writing;
use reference::Row;

pub fn shrink(mut case: Case) -> Case {
    loop {
        let before = case.clone();
        drop_calls(&mut case);
        for at in 0..case.calls.len() {
            shrink_call(&mut case, at);
        }
        shrink_board(&mut case);
        shrink_words(&mut case);
        if case == before {
            return case;
        }
    }
}

/// Takes the change over if there is still a difference with it.
fn keeps(case: &mut Case, change: impl FnOnce(&mut Case)) -> bool {
    let mut changed = case.clone();
    change(&mut changed);
    let kept = difference(&changed).is_some();
    if kept {
        *case = changed;
    }
    kept
}

/// Drops parts of a list of that length, large parts first; `drop_part` is
/// given first and length and says whether the part could go.
fn drop_parts(mut length: usize, mut drop_part: impl FnMut(usize, usize) -> bool) {
    let mut part = length;
    while part > 0 {
        let mut first = 0;
        while first + part <= length {
            if drop_part(first, part) {
                length -= part;
            } else {
                first += part;
            }
        }
        part /= 2;
    }
}

/// Lowers a number in steps that get smaller; `set` says whether it could be.
fn lower(mut value: u64, mut set: impl FnMut(u64) -> bool) {
    let mut step = value;
    while step > 0 {
        while step <= value && set(value - step) {
            value -= step;
        }
        step /= 2;
    }
}

fn drop_calls(case: &mut Case) {
    drop_parts(case.calls.len(), |first, length| {
        keeps(case, |case| drop(case.calls.drain(first..first + length)))
    });
}

fn shrink_call(case: &mut Case, at: usize) {
    match case.calls[at].clone() {
        Call::Withdraw(id) => lower_number(case, at, id, Call::Withdraw),
        Call::Ask(cores) => lower_number(case, at, cores, Call::Ask),
        Call::AskToEnd(cores) => lower_number(case, at, cores, Call::AskToEnd),
        Call::Plan(..) | Call::Note(..) | Call::Mend { .. } => shrink_reading(case, at),
        Call::Admit {
            record,
            cores,
            cost,
        } => {
            lower_number(case, at, cores, |cores| Call::admit(&record, cores, cost));
            shrink_reading(case, at);
        }
        Call::Write(_) => shrink_writing(case, at),
        Call::ReadGraph(_) => shrink_graph(case, at),
        Call::Building { .. } => shrink_building(case, at),
        Call::ReadPlan(_) => shrink_plan(case, at),
        Call::WritePlan(_) => shrink_plan_writing(case, at),
        Call::Judge { .. } => shrink_judging(case, at),
    }
}

/// A call that reads a record.
fn shrink_reading(case: &mut Case, at: usize) {
    shrink_number(case, at);
    shrink_task(&record(case, at).clone(), |changed| {
        keeps(case, |case| *record(case, at) = changed)
    });
    unpad(case, at, record);
    shrink_bytes(case, at, record);
}

fn shrink_number(case: &mut Case, at: usize) {
    lower(*record_and_number(case, at).1, |number| {
        keeps(case, |case| *record_and_number(case, at).1 = number)
    });
}

/// Of a call that a number of its own makes.
fn lower_number(case: &mut Case, at: usize, number: u64, call: impl Fn(u64) -> Call) {
    lower(number, |number| {
        keeps(case, |case| case.calls[at] = call(number))
    });
}

/// The record or file, and a cost or the number of bytes lent.
fn record_and_number(case: &mut Case, at: usize) -> (&mut Vec<u8>, &mut u64) {
    match &mut case.calls[at] {
        Call::Plan(record, cost) | Call::Note(record, cost) | Call::Admit { record, cost, .. } => {
            (record, cost)
        }
        Call::Mend { given, lent } => (given, lent),
        Call::Building { file, cost } => (file, cost),
        Call::Judge { record, cost, .. } => (record, cost),
        Call::Withdraw(_)
        | Call::Ask(_)
        | Call::AskToEnd(_)
        | Call::Write(_)
        | Call::ReadGraph(_)
        | Call::ReadPlan(_)
        | Call::WritePlan(_) => unreachable!("this call has no record"),
    }
}

/// Which bytes of a call.
type Bytes = fn(&mut Case, usize) -> &mut Vec<u8>;

fn record(case: &mut Case, at: usize) -> &mut Vec<u8> {
    record_and_number(case, at).0
}

fn plan(case: &mut Case, at: usize) -> &mut Vec<u8> {
    match &mut case.calls[at] {
        Call::ReadPlan(plan) | Call::Judge { plan, .. } => plan,
        _ => unreachable!("this call has no plan record"),
    }
}

/// Takes groups of zeros off the ends of numbers.
fn unpad(case: &mut Case, at: usize, bytes: Bytes) {
    for last in (1..bytes(case, at).len()).rev() {
        if bytes(case, at)[last] == 0 && bytes(case, at)[last - 1] >= 0x80 {
            keeps(case, |case| {
                bytes(case, at).remove(last);
                bytes(case, at)[last - 1] &= 0x7F;
            });
        }
    }
}

fn shrink_bytes(case: &mut Case, at: usize, bytes: Bytes) {
    drop_parts(bytes(case, at).len(), |first, length| {
        keeps(case, |case| {
            bytes(case, at).drain(first..first + length);
        })
    });
    for byte in 0..bytes(case, at).len() {
        lower(u64::from(bytes(case, at)[byte]), |value| {
            keeps(case, |case| bytes(case, at)[byte] = value as u8)
        });
    }
}

const DRAFT_FIELDS: [fn(&mut Draft) -> &mut u64; 3] = [
    |draft| &mut draft.period.value,
    |draft| &mut draft.id.value,
    |draft| &mut draft.edition.value,
];

/// A record gets smaller as a task first: nodes, edges, then numbers. What is
/// padded stays so. `set` says whether the changed one could be set in its place.
fn shrink_task(record: &[u8], mut set: impl FnMut(Vec<u8>) -> bool) {
    let Some(mut draft) = Draft::read(record) else {
        return;
    };
    let mut change = |draft: &mut Draft, change: &dyn Fn(&mut Draft)| {
        let mut changed = draft.clone();
        change(&mut changed);
        let kept = set(changed.record());
        if kept {
            *draft = changed;
        }
        kept
    };
    drop_parts(draft.nodes.len(), |first, length| {
        change(&mut draft, &|draft| draft.drop_nodes(first, length))
    });
    for node in 0..draft.nodes.len() {
        drop_parts(draft.nodes[node].parents.len(), |first, length| {
            change(&mut draft, &|draft| {
                draft.nodes[node].parents.drain(first..first + length);
            })
        });
        lower(draft.nodes[node].execution.value, |value| {
            change(&mut draft, &|draft| {
                draft.nodes[node].execution.value = value
            })
        });
    }
    for field in DRAFT_FIELDS {
        lower(*field(&mut draft), |value| {
            change(&mut draft, &|draft| *field(draft) = value)
        });
    }
}

const LISTS: [fn(&mut Writing) -> &mut Vec<u64>; 2] = [
    |writing| &mut writing.executions,
    |writing| &mut writing.parents,
];

const WRITING_FIELDS: [fn(&mut Writing) -> &mut u64; 4] = [
    |writing| &mut writing.period,
    |writing| &mut writing.id,
    |writing| &mut writing.edition,
    |writing| &mut writing.lent,
];

fn writing(case: &mut Case, at: usize) -> &mut Writing {
    match &mut case.calls[at] {
        Call::Write(writing) => writing,
        _ => unreachable!("this call writes no record"),
    }
}

/// Nodes, entries of one list, parents, then numbers.
fn shrink_writing(case: &mut Case, at: usize) {
    let [executions, parents] = LISTS.map(|list| list(writing(case, at)).len());
    drop_parts(executions.min(parents), |first, length| {
        keeps(case, |case| writing(case, at).drop_nodes(first, length))
    });
    for list in LISTS {
        drop_parts(list(writing(case, at)).len(), |first, length| {
            let part = first..first + length;
            keeps(case, |case| drop(list(writing(case, at)).drain(part)))
        });
    }
    for node in 0..writing(case, at).parents.len() {
        for bit in (0..64).map(|parent| 1 << parent) {
            if writing(case, at).parents[node] & bit != 0 {
                keeps(case, |case| writing(case, at).parents[node] ^= bit);
            }
        }
    }
    for node in 0..writing(case, at).executions.len() {
        lower(writing(case, at).executions[node], |value| {
            keeps(case, |case| writing(case, at).executions[node] = value)
        });
    }
    for field in WRITING_FIELDS {
        lower(*field(writing(case, at)), |value| {
            keeps(case, |case| *field(writing(case, at)) = value)
        });
    }
}

const GRAPH_FIELDS: [fn(&mut Graph) -> &mut u64; 3] = [
    |graph| &mut graph.period,
    |graph| &mut graph.id,
    |graph| &mut graph.lent,
];

fn graph(case: &mut Case, at: usize) -> &mut Graph {
    match &mut case.calls[at] {
        Call::ReadGraph(graph) => graph,
        _ => unreachable!("this call reads no graph"),
    }
}

/// Takes the text apart, and the change over if there is still a difference.
fn redraws(case: &mut Case, at: usize, change: impl FnOnce(&mut Sketch)) -> bool {
    let mut sketch = Sketch::of(&graph(case, at).text);
    change(&mut sketch);
    keeps(case, |case| graph(case, at).text = sketch.text())
}

/// Tasks, predecessors, partings and values, bytes, then what comes beside it.
fn shrink_graph(case: &mut Case, at: usize) {
    let tasks = Sketch::of(&graph(case, at).text).tasks().len();
    drop_parts(tasks, |first, length| {
        redraws(case, at, |sketch| sketch.drop_tasks(first, length))
    });
    shrink_predecessors(case, at);
    shrink_spelling(case, at);
    drop_parts(graph(case, at).text.len(), |first, length| {
        keeps(case, |case| {
            graph(case, at).text.drain(first..first + length);
        })
    });
    for field in GRAPH_FIELDS {
        lower(*field(graph(case, at)), |value| {
            keeps(case, |case| *field(graph(case, at)) = value)
        });
    }
}

fn shrink_predecessors(case: &mut Case, at: usize) {
    let tasks = |case: &mut Case| Sketch::of(&graph(case, at).text).tasks();
    for task in 0..tasks(case).len() {
        let Some(words) = tasks(case).get(task).cloned() else {
            return;
        };
        let predecessors = words.start + 3;
        drop_parts(words.end - predecessors, |first, length| {
            redraws(case, at, |sketch| {
                sketch.drop_predecessors(words.start, predecessors + first, length)
            })
        });
    }
}

/// Each word with a space before it or none, and numbers as low as they can be.
fn shrink_spelling(case: &mut Case, at: usize) {
    for word in 0..Sketch::of(&graph(case, at).text).words.len() {
        redraws(case, at, |sketch| {
            sketch.words[word].before = vec![b' '; word.min(1)]
        });
        let value = Sketch::of(&graph(case, at).text).words[word].value();
        lower(value.unwrap_or(0), |value| {
            redraws(case, at, |sketch| sketch.words[word].set(value))
        });
    }
}

/// Takes the file apart, and the change over if there is still a difference.
fn rearranges(case: &mut Case, at: usize, change: impl FnOnce(&mut Parts)) -> bool {
    let mut parts = Parts::of(record(case, at));
    change(&mut parts);
    keeps(case, |case| *record(case, at) = parts.file())
}

/// Of a longer file not every record and byte is looked at: it is walked through
/// anew each time.
const LONG: usize = 5_000;

/// Zeros alone if they will do, its end and its front, records, each of these as a
/// task, then bytes.
fn shrink_building(case: &mut Case, at: usize) {
    shrink_number(case, at);
    keeps(case, |case| record(case, at).fill(0));
    lower(record(case, at).len() as u64, |length| {
        keeps(case, |case| record(case, at).truncate(length as usize))
    });
    lower(records(case, at).len() as u64, |left| {
        rearranges(case, at, |parts| {
            let first = parts.records.len() - left as usize;
            parts.records.drain(..first);
        })
    });
    if record(case, at).len() <= LONG {
        shrink_records(case, at);
        unpad(case, at, record);
        shrink_bytes(case, at, record);
    }
}

fn records(case: &mut Case, at: usize) -> Vec<Vec<u8>> {
    Parts::of(record(case, at)).records
}

fn shrink_records(case: &mut Case, at: usize) {
    drop_parts(records(case, at).len(), |first, length| {
        rearranges(case, at, |parts| {
            parts.records.drain(first..first + length);
        })
    });
    for number in 0..records(case, at).len() {
        shrink_task(&records(case, at)[number], |changed| {
            rearranges(case, at, |parts| parts.records[number] = changed)
        });
    }
}

/// As a plan first, segments, nodes and then numbers, then as bytes.
fn shrink_plan(case: &mut Case, at: usize) {
    if let Ok(mut foreign) = Foreign::read(plan(case, at)) {
        for list in PLAN_LISTS {
            drop_parts(list(&mut foreign).len(), |first, length| {
                replans(case, at, &mut foreign, |foreign| {
                    list(foreign).drain(first..first + length);
                })
            });
        }
        shrink_plan_numbers(case, at, &mut foreign);
    }
    unpad(case, at, plan);
    shrink_bytes(case, at, plan);
}

const PLAN_LISTS: [fn(&mut Foreign) -> &mut Triples; 2] =
    [|plan| &mut plan.segments, |plan| &mut plan.nodes];

const PLAN_FIELDS: [fn(&mut Foreign) -> &mut u64; 2] = [|plan| &mut plan.over, |plan| &mut plan.id];

fn shrink_plan_numbers(case: &mut Case, at: usize, foreign: &mut Foreign) {
    for list in PLAN_LISTS {
        for number in 0..3 * list(foreign).len() {
            lower(list(foreign).as_flattened()[number], |value| {
                replans(case, at, foreign, |foreign| {
                    list(foreign).as_flattened_mut()[number] = value
                })
            });
        }
    }
    for field in PLAN_FIELDS {
        lower(*field(foreign), |value| {
            replans(case, at, foreign, |foreign| *field(foreign) = value)
        });
    }
}

/// Takes the change of the plan over if there is still a difference.
fn replans(
    case: &mut Case,
    at: usize,
    foreign: &mut Foreign,
    change: impl FnOnce(&mut Foreign),
) -> bool {
    let mut changed = foreign.clone();
    change(&mut changed);
    let kept = keeps(case, |case| *plan(case, at) = changed.record());
    if kept {
        *foreign = changed;
    }
    kept
}

/// Smaller tasks with their own plans if these will do, then the plan, then the
/// record by itself.
fn shrink_judging(case: &mut Case, at: usize) {
    shrink_task(&record(case, at).clone(), |changed| {
        let cost = *record_and_number(case, at).1;
        let Some(base) = Base::drawn(&changed, cost) else {
            return false;
        };
        keeps(case, |case| {
            *record(case, at) = changed;
            *plan(case, at) = base.own.record();
        })
    });
    shrink_plan(case, at);
    shrink_reading(case, at);
}

const PLAN_WRITING_FIELDS: [fn(&mut PlanWriting) -> &mut u64; 2] =
    [|writing| &mut writing.id, |writing| &mut writing.lent];

fn plan_writing(case: &mut Case, at: usize) -> &mut PlanWriting {
    match &mut case.calls[at] {
        Call::WritePlan(writing) => writing,
        _ => unreachable!("this call writes no plan"),
    }
}

/// Words, then the id and the number of bytes lent.
fn shrink_plan_writing(case: &mut Case, at: usize) {
    let words = plan_writing(case, at).words.len();
    lower(words as u64, |length| {
        keeps(case, |case| {
            plan_writing(case, at).words.truncate(length as usize)
        })
    });
    for word in 0..plan_writing(case, at).words.len() {
        lower(plan_writing(case, at).words[word], |value| {
            keeps(case, |case| plan_writing(case, at).words[word] = value)
        });
    }
    for field in PLAN_WRITING_FIELDS {
        lower(*field(plan_writing(case, at)), |value| {
            keeps(case, |case| *field(plan_writing(case, at)) = value)
        });
    }
}

const ROW_FIELDS: [fn(&mut Row) -> &mut u64; 7] = [
    |row| &mut row.id,
    |row| &mut row.nodes,
    |row| &mut row.sum,
    |row| &mut row.largest,
    |row| &mut row.longest,
    |row| &mut row.shortest,
    |row| &mut row.over,
];

fn shrink_board(case: &mut Case) {
    drop_parts(case.board.len(), |first, length| {
        keeps(case, |case| drop(case.board.drain(first..first + length)))
    });
    for at in 0..case.board.len() {
        if case.board[at] == Row::default() || keeps(case, |case| case.board[at] = Row::default()) {
            continue;
        }
        lower(case.board[at].over, |over| {
            keeps(case, |case| scale(&mut case.board[at], over))
        });
        for field in ROW_FIELDS {
            lower(*field(&mut case.board[at]), |value| {
                keeps(case, |case| *field(&mut case.board[at]) = value)
            });
        }
    }
}

/// Leaves the deadline about as it is: a Q lowered by itself would take the
/// numerator after it in tiny steps.
fn scale(row: &mut Row, over: u64) {
    let shortest = u128::from(row.shortest) * u128::from(over);
    row.shortest = shortest.div_ceil(u128::from(row.over)) as u64;
    row.over = over;
}

fn shrink_words(case: &mut Case) {
    drop_parts(case.words.len(), |first, length| {
        keeps(case, |case| drop(case.words.drain(first..first + length)))
    });
    if keeps(case, |case| case.words.fill(0)) {
        return;
    }
    for at in 0..case.words.len() {
        keeps(case, |case| case.words[at] = 0);
    }
}
