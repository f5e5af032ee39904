//! Document 01's worked tables, its listing and its slips.

use reference::{ask, note, plan, sheet, withdraw, Answer, Row, PLAN_WORDS};

const OLD: u64 = 0xA5A5;
const FOUR: [u8; 15] = [1, 9, 4, 4, 2, 0, 1, 1, 0, 1, 1, 0, 1, 1, 0];
const LISTED: [u8; 11] = [1, 3, 6, 3, 3, 0, 1, 0, 1, 1, 1];

fn yes(value: u64) -> Answer {
    Answer {
        value,
        ..Answer::default()
    }
}

fn refused(refusal: u64, place: u64) -> Answer {
    Answer {
        refusal,
        place,
        ..Answer::default()
    }
}

/// The written words; the rest of the buffer has to keep its old content.
fn planned(record: &[u8]) -> Vec<u64> {
    let mut words = [OLD; PLAN_WORDS + 5];
    let answer = plan(record, &mut words, 0);
    assert_eq!((answer.refusal, answer.place), (0, 0));
    let (written, rest) = words.split_at(answer.value as usize);
    assert!(rest.iter().all(|&word| word == OLD));
    written.to_vec()
}

fn plan_refusal(record: &[u8]) -> Answer {
    let mut words = [OLD; PLAN_WORDS];
    let answer = plan(record, &mut words, 0);
    assert_eq!(words, [OLD; PLAN_WORDS]);
    answer
}

fn board_with(records: &[&[u8]]) -> [Row; 16] {
    let mut board = [Row::default(); 16];
    let mut words = [0; PLAN_WORDS];
    for (row, record) in records.iter().enumerate() {
        assert_eq!(note(record, &mut words, &mut board, 0), yes(row as u64));
    }
    board
}

/// Asks a board on which only this record's task stands.
fn verdict(record: &[u8], cores: u64) -> u64 {
    let answer = ask(&board_with(&[record]), cores);
    assert_eq!(answer.refusal, 0);
    answer.value
}

fn chain_of_three(period: u8) -> [u8; 12] {
    [1, 7, period, 3, 1, 0, 1, 1, 0, 1, 1, 1]
}

#[test]
fn one_node() {
    let light = [1, 7, 5, 1, 5, 0];
    assert_eq!(planned(&light), [5, 1, 1, 1, 5, 25, 0, 25, 1_000_000]);
    assert_eq!(verdict(&light, 1), 1);
    let heavy = [1, 7, 10, 1, 5, 0];
    assert_eq!(planned(&heavy), [5, 1, 1, 1, 5, 50, 0, 50, 500_000]);
    assert_eq!(plan_refusal(&[1, 7, 4, 1, 5, 0]), refused(11, 0));
}

#[test]
fn chain() {
    let record = chain_of_three(3);
    let mut expected = vec![3, 3, 3];
    expected.extend([[1, 1, 3]; 3].concat());
    for offset in [0, 3, 6] {
        expected.extend([offset, 3, 1_000_000]);
    }
    assert_eq!(planned(&record), expected);
    let row = board_with(&[&record])[0];
    assert_eq!((row.sum, row.largest), (3_000_000, 1_000_000));
    assert_eq!((verdict(&record, 1), verdict(&record, 3)), (0, 0));
}

#[test]
fn four_nodes() {
    let mut expected = vec![6, 2, 4, 1, 2, 6, 3, 1, 18, 0, 6, 2_000_000];
    expected.extend([[6, 18, 333_334]; 3].concat());
    assert_eq!(expected.len(), 21);
    assert_eq!(planned(&FOUR), expected);
}

#[test]
fn listing() {
    let text = "task 3 period 6 work 5 path 3 over 5\n\
                seg 0 threads 2 length 1 deadline 12\n\
                seg 1 threads 2 length 1 deadline 12\n\
                seg 2 threads 1 length 1 deadline 6\n\
                node 0 offset 0 deadline 30 density 500000\n\
                node 1 offset 0 deadline 12 density 416667\n\
                node 2 offset 12 deadline 12 density 416667\n\
                sum 1333334 max 500000\n";
    assert_eq!(String::from_utf8(sheet(&LISTED)).unwrap(), text);
    assert_eq!((verdict(&LISTED, 2), verdict(&LISTED, 1)), (1, 0));
}

#[test]
fn refused_sheets() {
    assert_eq!(sheet(&[1, 7, 5, 1, 5, 1, 0]), b"refused 10 at 0\n");
    assert_eq!(sheet(&[]), b"refused 1 at 0\n");
    assert_eq!(sheet(&[0x80, 0x00]), b"refused 18 at 0\n");
    assert_eq!(sheet(&[1; 9_000]), b"refused 8 at 6\n");
}

#[test]
fn loops() {
    let looping = |ring| Answer {
        ring,
        ..refused(10, 0)
    };
    assert_eq!(plan_refusal(&[1, 7, 5, 1, 5, 1, 0]), looping(0b1));
    let each_other = [1, 7, 9, 2, 1, 1, 1, 1, 1, 0];
    assert_eq!(plan_refusal(&each_other), looping(0b11));
}

#[test]
fn numbers() {
    assert_eq!(plan_refusal(&[]), refused(1, 0));
    assert_eq!(plan_refusal(&[0x80, 0x00]), refused(18, 0));
    assert_eq!(plan_refusal(&[0x80]), refused(1, 1));
    assert_eq!(plan_refusal(&[0x81, 0x80, 0x80]), refused(1, 3));
    assert_eq!(plan_refusal(&[0x81, 0x80, 0x80, 0x80]), refused(2, 0));
    assert_eq!(plan_refusal(&[0x81, 0x80, 0x80, 0x00]), refused(18, 0));
    // Both faults at once: the fourth byte decides.
    assert_eq!(plan_refusal(&[0x80, 0x80, 0x80, 0x80, 0]), refused(2, 0));
    // Edition 3, id 0 and period 0: a form is told before a range.
    assert_eq!(plan_refusal(&[0x83, 0x00]), refused(18, 0));
    assert_eq!(plan_refusal(&[1, 0x80, 0x00]), refused(18, 1));
    assert_eq!(plan_refusal(&[1, 7, 0x80, 0x80, 0x00]), refused(18, 2));
    assert_eq!(plan_refusal(&[1, 7, 0x80, 0x80, 0x80, 0x08]), refused(5, 2));
    let largest = [1, 7, 0xFF, 0xFF, 0xFF, 0x07, 1, 5, 0];
    assert_eq!(planned(&largest)[5], 16_777_215 * 5);
    let execution_128 = [1, 7, 0x80, 0x01, 1, 0x80, 0x01, 0];
    assert_eq!(planned(&execution_128)[4], 128);
}

#[test]
fn ranges() {
    assert_eq!(plan_refusal(&[0]), refused(3, 0));
    assert_eq!(plan_refusal(&[3]), refused(3, 0));
    assert_eq!(plan_refusal(&[1, 0]), refused(4, 1));
    assert_eq!(plan_refusal(&[1, 0x80, 0x80, 4]), refused(4, 1));
    assert_eq!(plan_refusal(&[1, 0xFF, 0xFF, 3]), refused(1, 4));
    assert_eq!(plan_refusal(&[1, 7, 0]), refused(5, 2));
    assert_eq!(plan_refusal(&[1, 7, 5, 0]), refused(6, 3));
    assert_eq!(plan_refusal(&[1, 7, 5, 65]), refused(6, 3));
    assert_eq!(plan_refusal(&[1, 7, 5, 64]), refused(1, 4));
    assert_eq!(plan_refusal(&[1, 7, 5, 1, 0]), refused(7, 4));
    assert_eq!(plan_refusal(&[1, 7, 5, 1, 0x80, 0x80, 4]), refused(7, 4));
    assert_eq!(plan_refusal(&[1, 7, 5, 1, 5, 2]), refused(8, 5));
    assert_eq!(plan_refusal(&[1, 7, 5, 2, 5, 1, 2]), refused(8, 6));
    assert_eq!(plan_refusal(&[1, 7, 5, 2, 5, 2, 1, 1]), refused(8, 7));
    assert_eq!(plan_refusal(&[1, 7, 5, 2, 5, 2, 1, 0]), refused(8, 7));
    assert_eq!(plan_refusal(&[1, 7, 5, 1, 5, 0, 0]), refused(9, 6));
}

#[test]
fn empty_board() {
    let board = [Row::default(); 16];
    assert_eq!(ask(&board, 1), yes(1));
    assert_eq!(ask(&board, 64), yes(1));
    assert_eq!(ask(&board, 0), refused(15, 0));
    assert_eq!(ask(&board, 65), refused(15, 0));
}

#[test]
fn slip_a_tie_is_light() {
    assert_eq!(planned(&FOUR)[0], 6);
}

#[test]
fn slip_a_child_may_come_first() {
    let child_first = [1, 7, 9, 2, 1, 1, 1, 2, 0];
    // All heavy: Q 3; node 1 runs first and node 0 waits for it.
    let expected = [3, 2, 2, 1, 2, 18, 1, 1, 9, 18, 9, 333_334, 0, 18, 333_334];
    assert_eq!(planned(&child_first), expected);
}

#[test]
fn slip_an_offset_is_no_start() {
    let words = planned(&LISTED);
    let node_2 = &words[3 + 3 * 3 + 3 * 2..];
    // It starts at 1, that is 5 over Q, but its window opens at 12 over Q.
    assert_eq!(node_2[0], 12);
}

#[test]
fn slip_segment_deadlines_fill_the_period() {
    for (record, period) in [(&LISTED[..], 6), (&FOUR[..], 4), (&chain_of_three(9), 9)] {
        let words = planned(record);
        let segments = &words[3..3 + 3 * words[1] as usize];
        let total: u64 = segments.chunks(3).map(|triple| triple[2]).sum();
        assert_eq!(total, period * words[0]);
    }
}

#[test]
fn slip_id_0_never_stands() {
    let mut board = board_with(&[&LISTED]);
    let before = board;
    assert_eq!(withdraw(&mut board, 0), refused(14, 0));
    assert_eq!(board, before);
}

#[test]
fn slip_densities_round_up() {
    // Three times 333,333 and a third: rounded down, the sum would pass.
    let record = chain_of_three(9);
    let row = board_with(&[&record])[0];
    assert_eq!((row.sum, row.largest), (1_000_002, 333_334));
    assert_eq!(verdict(&record, 1), 0);
}
