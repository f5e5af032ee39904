//! Edition 2: nodes with execution 0, called joins, cost nothing.

use reference::{ask, note, plan, sheet, Answer, Row, PLAN_WORDS};
use std::collections::BTreeSet;

const OLD: u64 = 0xA5A5;

fn refused(refusal: u64, place: u64) -> Answer {
    Answer {
        refusal,
        place,
        ..Answer::default()
    }
}

fn answered(record: &[u8]) -> (Answer, Vec<u64>) {
    let mut words = [OLD; PLAN_WORDS + 5];
    let answer = plan(record, &mut words, 0);
    let (written, rest) = words.split_at(answer.value as usize);
    assert!(rest.iter().all(|&word| word == OLD));
    (answer, written.to_vec())
}

fn planned(record: &[u8]) -> Vec<u64> {
    let (answer, words) = answered(record);
    assert_eq!((answer.refusal, answer.place), (0, 0));
    words
}

fn plan_refusal(record: &[u8]) -> Answer {
    let (answer, words) = answered(record);
    assert_eq!(words, []);
    answer
}

/// A task's nodes, each with its execution and its parents.
type Nodes = Vec<(u8, Vec<u8>)>;

fn record(edition: u8, period: u8, nodes: &Nodes) -> Vec<u8> {
    let mut record = vec![edition, 7, period, nodes.len() as u8];
    for (execution, parents) in nodes {
        record.extend([*execution, parents.len() as u8]);
        record.extend(parents);
    }
    record
}

/// Each node waits for the one before it.
fn chain(executions: &[u8]) -> Nodes {
    let node = |(at, &execution): (usize, &u8)| {
        let parents = (at.max(1) as u8 - 1..at as u8).collect();
        (execution, parents)
    };
    executions.iter().enumerate().map(node).collect()
}

/// Each node's triple.
fn nodes_of(words: &[u64]) -> Vec<[u64; 3]> {
    let nodes = words[3 + 3 * words[1] as usize..].chunks(3);
    nodes.map(|node| [node[0], node[1], node[2]]).collect()
}

const STEP: [u64; 3] = [0, 27, 333_334];

#[test]
fn a_join_first() {
    let words = planned(&record(2, 9, &chain(&[0, 3])));
    assert_eq!(words[..6], [3, 1, 2, 1, 3, 27]);
    assert_eq!(nodes_of(&words), [[0, 0, 0], STEP]);
}

#[test]
fn a_join_last() {
    let words = planned(&record(2, 9, &chain(&[3, 0])));
    assert_eq!(words[..6], [3, 1, 2, 1, 3, 27]);
    assert_eq!(nodes_of(&words), [STEP, [27, 0, 0]]);
}

#[test]
fn a_join_that_nobody_waits_for() {
    let words = planned(&[2, 7, 9, 2, 0, 0, 3, 0]);
    assert_eq!(words[..6], [3, 1, 2, 1, 3, 27]);
    assert_eq!(nodes_of(&words), [[0, 0, 0], STEP]);
}

#[test]
fn a_join_between() {
    // Work 3 and path 3 in a period of 9: three units for each one.
    let words = planned(&record(2, 9, &chain(&[1, 0, 2])));
    assert_eq!(words[..9], [3, 2, 3, 1, 1, 9, 1, 2, 18]);
    let expected = [[0, 9, 333_334], [9, 0, 0], [9, 18, 333_334]];
    assert_eq!(nodes_of(&words), expected);
}

#[test]
fn a_chain_of_joins() {
    let words = planned(&record(2, 9, &chain(&[0, 0, 3, 0, 0, 0])));
    assert_eq!(words[..6], [3, 1, 6, 1, 3, 27]);
    let (before, after) = ([0, 0, 0], [27, 0, 0]);
    let expected = [before, before, STEP, after, after, after];
    assert_eq!(nodes_of(&words), expected);
}

#[test]
fn a_chain_of_joins_listed_last_first() {
    let mut nodes = chain(&[0, 0, 3, 0, 0, 0]);
    nodes.reverse();
    for (_, parents) in &mut nodes {
        parents.iter_mut().for_each(|parent| *parent = 5 - *parent);
    }
    let words = planned(&record(2, 9, &nodes));
    let (before, after) = ([0, 0, 0], [27, 0, 0]);
    let expected = [after, after, after, STEP, before, before];
    assert_eq!(nodes_of(&words), expected);
}

#[test]
fn one_step_among_63_joins() {
    for at in 0..64 {
        let mut executions = [0; 64];
        executions[at] = 3;
        let words = planned(&record(2, 3, &chain(&executions)));
        assert_eq!(words[..6], [3, 1, 64, 1, 3, 9]);
        for (node, triple) in nodes_of(&words).into_iter().enumerate() {
            let expected = match node == at {
                true => [0, 9, 1_000_000],
                false => [if node < at { 0 } else { 9 }, 0, 0],
            };
            assert_eq!(triple, expected, "node {node}, step {at}");
        }
    }
}

#[test]
fn two_branches_meet() {
    // Steps of 2 and 4, a join of both, and a step of 1 after it.
    let meet = [2, 7, 10, 4, 2, 0, 4, 0, 0, 2, 0, 1, 1, 1, 2];
    let words = planned(&meet);
    assert_eq!(words[..12], [7, 3, 4, 2, 2, 40, 1, 2, 20, 1, 1, 10]);
    let expected = [
        [0, 40, 350_000],
        [0, 60, 466_667],
        [60, 0, 0],
        [60, 10, 700_000],
    ];
    assert_eq!(nodes_of(&words), expected);
    // The path is 5, and with a join of one unit it is 6.
    let mut tight = meet;
    tight[2] = 5;
    assert_eq!(answered(&tight).0.refusal, 0);
    (tight[0], tight[8]) = (1, 1);
    assert_eq!(plan_refusal(&tight), refused(11, 0));
}

/// The same without its joins: who waited for one waits for its parents.
fn without_joins(nodes: &Nodes) -> Nodes {
    let is_step = |&node: &u8| nodes[usize::from(node)].0 > 0;
    let number = |step| (0..step).filter(is_step).count() as u8;
    let mut waits: Vec<BTreeSet<u8>> = Vec::new();
    for (_, parents) in nodes {
        let steps = |&parent: &u8| match is_step(&parent) {
            true => BTreeSet::from([number(parent)]),
            false => waits[usize::from(parent)].clone(),
        };
        let steps = parents.iter().flat_map(steps).collect();
        waits.push(steps);
    }
    let steps = nodes.iter().zip(waits).filter(|(node, _)| node.0 > 0);
    steps
        .map(|(node, waits)| (node.0, waits.into_iter().collect()))
        .collect()
}

#[test]
fn joins_cost_nothing() {
    let mut state = 1u32;
    let mut below = |limit: u32| {
        state = state.wrapping_mul(1_664_525).wrapping_add(1_013_904_223);
        (state >> 8) % limit
    };
    let mut planned = 0;
    for _ in 0..5_000 {
        let count = 1 + below(12) as u8;
        let mut node = |at: u8| {
            let execution = below(2) * (1 + below(9));
            let parents = (0..at).filter(|_| below(3) == 0).collect();
            (execution as u8, parents)
        };
        let mut nodes: Nodes = (0..count).map(&mut node).collect();
        nodes.push((1, vec![]));
        let period = 1 + below(127) as u8;
        let (answer, words) = answered(&record(2, period, &nodes));
        let (other, others) = answered(&record(1, period, &without_joins(&nodes)));
        assert_eq!(answer.refusal, other.refusal);
        if answer.refusal == 0 {
            planned += 1;
            assert_same(&nodes, &words, &others);
        }
    }
    assert!(planned > 2_000, "only {planned} tasks were planned");
}

/// Q, segments and the steps' triples are the same; a join's deadline and
/// density are 0, and its offset is as its parents give it.
fn assert_same(nodes: &Nodes, words: &[u64], others: &[u64]) {
    let front = 3 + 3 * words[1] as usize;
    assert_eq!(words[..2], others[..2]);
    assert_eq!(words[3..front], others[3..front]);
    let triples = nodes_of(words);
    let mut steps = nodes_of(others).into_iter();
    for ((execution, parents), triple) in nodes.iter().zip(&triples) {
        if *execution > 0 {
            assert_eq!(Some(*triple), steps.next());
            continue;
        }
        let end = |&parent: &u8| {
            let [offset, deadline, _] = triples[usize::from(parent)];
            offset + deadline
        };
        let offset = parents.iter().map(end).max().unwrap_or(0);
        assert_eq!(*triple, [offset, 0, 0]);
    }
    assert_eq!(steps.next(), None);
}

#[test]
fn both_editions_give_the_same_without_joins() {
    let mut two = [1, 3, 6, 3, 3, 0, 1, 0, 1, 1, 1];
    let one = planned(&two);
    two[0] = 2;
    assert_eq!(planned(&two), one);
}

#[test]
fn editions() {
    for edition in [0, 3, 4, 127] {
        assert_eq!(plan_refusal(&[edition, 7, 9, 1, 0, 0]), refused(3, 0));
    }
    assert_eq!(plan_refusal(&[0x82, 0x01, 7, 9, 1, 3, 0]), refused(3, 0));
    assert_eq!(plan_refusal(&[0x82, 0x00, 7, 9, 1, 3, 0]), refused(18, 0));
    assert_eq!(plan_refusal(&[0x82, 0x80, 0x80, 0x80]), refused(2, 0));
    assert_eq!(plan_refusal(&[2]), refused(1, 1));
}

#[test]
fn executions() {
    // In edition 1, 0 is 7 as before, at each node.
    assert_eq!(plan_refusal(&[1, 7, 9, 2, 0, 0, 3, 0]), refused(7, 4));
    assert_eq!(plan_refusal(&[1, 7, 9, 2, 3, 0, 0, 0]), refused(7, 6));
    // In edition 2 the upper limit stays, and 0 has one form.
    let above = [2, 7, 9, 1, 0x80, 0x80, 4, 0];
    assert_eq!(plan_refusal(&above), refused(7, 4));
    assert_eq!(plan_refusal(&[2, 7, 9, 1, 0x80, 0, 0]), refused(18, 4));
    // 21 speaks of all executions: one that is out of range goes before it.
    let zeros_and_above = [2, 7, 9, 2, 0, 0, 0x80, 0x80, 4, 0];
    assert_eq!(plan_refusal(&zeros_and_above), refused(7, 6));
}

#[test]
fn nothing_runs() {
    for count in 1..=64 {
        let joins = chain(&vec![0; count]);
        assert_eq!(plan_refusal(&record(2, 1, &joins)), refused(21, 0));
    }
    assert_eq!(sheet(&[2, 7, 9, 1, 0, 0]), b"refused 21 at 0\n");
}

#[test]
fn the_order_of_21() {
    let bytes_follow = [2, 7, 9, 1, 0, 0, 0];
    assert_eq!(plan_refusal(&bytes_follow), refused(9, 6));
    let cut = [2, 7, 9, 2, 0, 0, 0];
    assert_eq!(plan_refusal(&cut), refused(1, 7));
    let no_such_parent = [2, 7, 9, 2, 0, 0, 0, 1, 2];
    assert_eq!(plan_refusal(&no_such_parent), refused(8, 8));
    let own_parent = [2, 7, 9, 1, 0, 1, 0];
    assert_eq!(plan_refusal(&own_parent), refused(21, 0));
    let each_other = [2, 7, 9, 2, 0, 1, 1, 0, 1, 0];
    assert_eq!(plan_refusal(&each_other), refused(21, 0));
}

#[test]
fn joins_on_a_loop() {
    // Node 0 runs; the joins 1 and 2 wait for each other.
    let answer = plan_refusal(&[2, 7, 9, 3, 3, 0, 0, 1, 2, 0, 1, 1]);
    let expected = Answer {
        ring: 0b110,
        ..refused(10, 1)
    };
    assert_eq!(answer, expected);
}

#[test]
fn a_row_counts_joins_among_its_nodes() {
    let mut board = [Row::default(); 16];
    let mut words = [OLD; PLAN_WORDS];
    let three = record(2, 9, &chain(&[0, 3, 0]));
    assert_eq!(note(&three, &mut words, &mut board, 0), Answer::default());
    let row = Row {
        id: 7,
        nodes: 3,
        sum: 333_334,
        largest: 333_334,
        longest: 3,
        shortest: 27,
        over: 3,
    };
    assert_eq!(board[0], row);
    assert_eq!(ask(&board, 1).value, 1);
}

#[test]
fn where_21_stands_among_notings_refusals() {
    let joins = [2, 7, 9, 1, 0, 0];
    let task = [2, 7, 9, 1, 3, 0];
    let mut words = [OLD; PLAN_WORDS];
    let mut board = [Row::default(); 16];
    note(&task, &mut words, &mut board, 0);
    // Before 12: the id stands.
    assert_eq!(note(&joins, &mut words, &mut board, 0), refused(21, 0));
    board[1] = board[0];
    assert_eq!(note(&joins, &mut words, &mut board, 0), refused(17, 0));
    let short = &mut words[1..];
    assert_eq!(note(&joins, short, &mut board, 0), refused(16, 0));
}
