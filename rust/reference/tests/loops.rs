//! Refusal 10: the node that a loop is named by, and the loop shown with it.

use reference::{note, plan, sheet, Answer, Row, PLAN_WORDS};

const OLD: u64 = 0xA5A5;

fn looping(place: u64, ring: &[u64]) -> Answer {
    Answer {
        refusal: 10,
        place,
        value: 0,
        ring: ring.iter().map(|node| 1 << node).sum(),
    }
}

fn plan_refusal(record: &[u8]) -> Answer {
    let mut words = [OLD; PLAN_WORDS];
    let answer = plan(record, &mut words, 0);
    assert_eq!(words, [OLD; PLAN_WORDS]);
    answer
}

/// A task whose steps run 1 each, node k waiting for `parents[k]`.
fn record(parents: &[Vec<u8>]) -> Vec<u8> {
    let mut record = vec![1, 7, 100, parents.len() as u8];
    for parents in parents {
        record.extend([1, parents.len() as u8]);
        record.extend(parents);
    }
    record
}

fn drawn(parents: &[&[u8]]) -> Answer {
    let parents: Vec<Vec<u8>> = parents.iter().map(|parents| parents.to_vec()).collect();
    plan_refusal(&record(&parents))
}

#[test]
fn own_parent() {
    let record = [1, 5, 9, 1, 1, 1, 0];
    assert_eq!(plan_refusal(&record), looping(0, &[0]));
}

#[test]
fn each_others_parent() {
    let record = [1, 6, 9, 2, 1, 1, 1, 1, 1, 0];
    assert_eq!(plan_refusal(&record), looping(0, &[0, 1]));
}

#[test]
fn a_loop_is_told_before_a_path_too_long() {
    let record = [1, 7, 1, 2, 5, 0, 5, 1, 1];
    assert_eq!(plan_refusal(&record), looping(1, &[1]));
}

#[test]
fn a_loop_off_node_0() {
    // Nodes 2, 4 and 3 wait for each other; 2 waits for node 0, and 5 for 4.
    let answer = drawn(&[&[], &[0], &[0, 4], &[2], &[3], &[4]]);
    assert_eq!(answer, looping(2, &[2, 3, 4]));
}

#[test]
fn who_waits_for_a_loop_is_not_on_it() {
    let answer = drawn(&[&[1], &[2], &[3], &[2]]);
    assert_eq!(answer, looping(2, &[2, 3]));
}

#[test]
fn of_two_loops_the_one_with_the_smaller_node() {
    let answer = drawn(&[&[], &[4], &[3], &[2], &[1]]);
    assert_eq!(answer, looping(1, &[1, 4]));
    // The same, and the first loop's nodes wait for the second's.
    let answer = drawn(&[&[], &[2, 4], &[3], &[2], &[1, 3]]);
    assert_eq!(answer, looping(1, &[1, 4]));
}

#[test]
fn a_chord_cuts_the_loop_short() {
    // Each of five waits for the one before it; node 4 for node 1 besides.
    let answer = drawn(&[&[4], &[0], &[1], &[2], &[1, 3]]);
    assert_eq!(answer, looping(0, &[0, 1, 4]));
}

#[test]
fn the_rule_chooses_and_not_the_length() {
    // 0 and 1 are a shorter loop, but node 1 is the first to be left out.
    let answer = drawn(&[&[1, 2], &[0], &[3], &[0]]);
    assert_eq!(answer, looping(0, &[0, 2, 3]));
}

#[test]
fn tangles() {
    for count in 1..=64 {
        let all = vec![(0..count).collect(); count as usize];
        assert_eq!(plan_refusal(&record(&all)), looping(0, &[0]));
    }
    // Without a node that is its own parent, the last node is left.
    for count in 2..=64 {
        let others = |node| (0..count).filter(|&other| other != node).collect();
        let others: Vec<Vec<u8>> = (0..count).map(others).collect();
        let last = u64::from(count) - 1;
        assert_eq!(plan_refusal(&record(&others)), looping(0, &[0, last]));
    }
}

#[test]
fn rings_of_all_nodes() {
    for count in 1..=64u8 {
        let before = |node| vec![(node + count - 1) % count];
        let parents: Vec<Vec<u8>> = (0..count).map(before).collect();
        let all: Vec<u64> = (0..u64::from(count)).collect();
        assert_eq!(plan_refusal(&record(&parents)), looping(0, &all));
    }
}

#[test]
fn noting_shows_the_loop() {
    let record = record(&[vec![], vec![2], vec![1]]);
    let mut board = [Row::default(); 16];
    let answer = note(&record, &mut [OLD; PLAN_WORDS], &mut board, 0);
    assert_eq!(answer, looping(1, &[1, 2]));
    assert_eq!(board, [Row::default(); 16]);
}

#[test]
fn a_sheet_tells_the_place_alone() {
    let record = record(&[vec![], vec![2], vec![1]]);
    assert_eq!(sheet(&record), b"refused 10 at 1\n");
}
