//! The worked example of docs/SALES.md: three tasks on a board.

use reference::{ask, ask_to_end, note, withdraw, Answer, Row, PLAN_WORDS};

const CALLS: &[u8] = &[1, 1, 40, 2, 2, 0, 3, 1, 0];
const PANEL: &[u8] = &[1, 2, 20, 1, 6, 0];
const DOORS: &[u8] = &[1, 3, 100, 3, 9, 0, 9, 0, 6, 2, 0, 1];
const FOUR: &[u8] = &[1, 9, 4, 4, 2, 0, 1, 1, 0, 1, 1, 0, 1, 1, 0];

type Board = [Row; 16];

fn put(board: &mut Board, record: &[u8], cost: u64) {
    let answer = note(record, &mut [0; PLAN_WORDS], board, cost);
    assert_eq!(answer.refusal, 0);
}

fn three(cost: u64) -> Board {
    let mut board = Board::default();
    for record in [CALLS, PANEL, DOORS] {
        put(&mut board, record, cost);
    }
    board
}

/// Both verdicts for 0 to 65 cores.
fn answers(board: &Board) -> Vec<[Answer; 2]> {
    let both = |cores| [ask(board, cores), ask_to_end(board, cores)];
    (0..=65).map(both).collect()
}

/// A yes from the first number on up to 64, to the end from the second.
fn assert_from(board: &Board, first: [u64; 2]) {
    for cores in 1..=64 {
        let yes = [ask(board, cores).value, ask_to_end(board, cores).value];
        assert_eq!(yes, first.map(|first| u64::from(first <= cores)), "{cores}");
    }
}

#[test]
fn a_yes_for_every_larger_count() {
    assert_from(&three(0), [2, 6]);
    assert_from(&Board::default(), [1, 1]);
}

#[test]
fn a_yes_after_each_withdrawal() {
    for (id, first) in [(1, [1, 2]), (2, [1, 3]), (3, [1, 1])] {
        let mut board = three(0);
        withdraw(&mut board, id);
        assert_from(&board, first);
    }
}

#[test]
fn the_same_tasks_in_other_rows() {
    let mut board = Board::default();
    put(&mut board, FOUR, 0);
    put(&mut board, DOORS, 0);
    withdraw(&mut board, 9);
    put(&mut board, PANEL, 0);
    put(&mut board, CALLS, 0);
    assert_ne!(board, three(0));
    assert_eq!(answers(&board), answers(&three(0)));
}

#[test]
fn the_same_records_at_another_cost() {
    assert_from(&three(1), [2, 14]);
}

#[test]
fn a_density_above_one_is_a_no() {
    let mut board = three(0);
    put(&mut board, FOUR, 0);
    assert_from(&board, [65, 65]);
}
