//! The board's rules: order of refusals, soundness, rows used again.

use reference::{ask, ask_to_end, note, plan, withdraw, Answer, Row, PLAN_WORDS};

const OLD: u64 = 0xA5A5;

/// One node of execution 5 in a period of 10: deadline 50 over 5, density
/// 500,000.
fn record(id: u8) -> [u8; 6] {
    [1, id, 10, 1, 5, 0]
}

fn row(id: u64) -> Row {
    Row {
        id,
        nodes: 1,
        sum: 500_000,
        largest: 500_000,
        longest: 5,
        shortest: 50,
        over: 5,
    }
}

fn yes(value: u64) -> Answer {
    Answer {
        value,
        ..Answer::default()
    }
}

fn refused(refusal: u64, place: u64) -> Answer {
    Answer {
        refusal,
        place,
        ..Answer::default()
    }
}

fn full_board() -> [Row; 16] {
    std::array::from_fn(|at| row(at as u64 + 1))
}

/// Notes and checks that a refusal has touched nothing.
fn note_refusal(record: &[u8], lent: usize, board: &[Row]) -> Answer {
    let mut words = vec![OLD; lent];
    let mut rows = board.to_vec();
    let answer = note(record, &mut words, &mut rows, 0);
    assert_ne!(answer.refusal, 0);
    assert!(words.iter().all(|&word| word == OLD));
    assert_eq!(rows, board);
    answer
}

#[test]
fn note_withdraw_and_note_again() {
    let mut board = [Row::default(); 16];
    let mut words = [OLD; PLAN_WORDS];
    for at in 0..16 {
        let answer = note(&record(at + 1), &mut words, &mut board, 0);
        assert_eq!(answer, yes(u64::from(at)));
    }
    assert_eq!(board, full_board());
    assert_eq!(words[..9], [5, 1, 1, 1, 5, 50, 0, 50, 500_000]);
    assert_eq!(withdraw(&mut board, 9), yes(8));
    assert_eq!(withdraw(&mut board, 4), yes(3));
    assert_eq!(withdraw(&mut board, 4), refused(14, 0));
    assert_eq!(note(&record(99), &mut words, &mut board, 0), yes(3));
    assert_eq!(note(&record(98), &mut words, &mut board, 0), yes(8));
    assert_eq!((board[3], board[8]), (row(99), row(98)));
}

#[test]
fn order_of_notings_refusals() {
    let full = full_board();
    let mut unsound = full;
    unsound[5].id = 1;
    let too_long = [1, 1, 4, 1, 5, 0];
    assert_eq!(note_refusal(&[], 386, &unsound), refused(16, 0));
    assert_eq!(note_refusal(&[], 387, &unsound), refused(17, 0));
    assert_eq!(note_refusal(&[1], 387, &full), refused(1, 1));
    assert_eq!(note_refusal(&too_long, 387, &full), refused(11, 0));
    assert_eq!(note_refusal(&record(1), 387, &full), refused(12, 0));
    assert_eq!(note_refusal(&record(99), 387, &full), refused(13, 0));
}

#[test]
fn a_short_plan_goes_before_the_record() {
    let mut words = [OLD; PLAN_WORDS - 1];
    assert_eq!(plan(&[], &mut words, 0), refused(16, 0));
    assert_eq!(plan(&record(1), &mut words, 0), refused(16, 0));
    assert_eq!(plan(&record(1), &mut [], 0), refused(16, 0));
}

#[test]
fn an_unsound_board_goes_before_id_and_cores() {
    for length in (0..16).chain([17, 32]) {
        let mut board = vec![Row::default(); length];
        assert_eq!(withdraw(&mut board, 0), refused(17, 0));
        assert_eq!(ask(&board, 0), refused(17, 0));
        assert_eq!(ask_to_end(&board, 0), refused(17, 0));
    }
}

/// Each leaves row 7 of the full board unsound, or its id twice.
const SPOILS: [fn(&mut Row); 33] = [
    |row| row.id = 0,
    |row| row.id = 65_536,
    |row| row.id = 1,
    |row| row.nodes = 0,
    |row| (row.nodes, row.sum) = (65, 500_000),
    |row| row.largest = 0,
    |row| (row.nodes, row.sum, row.largest) = (2, 2_000_001, 2_000_001),
    |row| row.sum = 499_999,
    |row| row.sum = 500_001,
    |row| (row.nodes, row.largest, row.sum) = (u64::MAX, u64::MAX, u64::MAX),
    |row| row.longest = 0,
    |row| row.longest = 65_791,
    |row| row.longest = u64::MAX,
    |row| row.over = 0,
    |row| (row.shortest, row.over) = (0, 0),
    |row| (row.shortest, row.over) = (8_421_121, 8_421_121),
    |row| row.over = u64::MAX,
    |row| row.shortest = 0,
    // Q above twice the numerator.
    |row| (row.shortest, row.over) = (0, 1),
    |row| (row.shortest, row.over) = (1, 3),
    |row| row.over = 101,
    |row| (row.shortest, row.over) = (4_210_559, 8_421_119),
    |row| (row.shortest, row.over) = (4_210_559, 8_421_120),
    // The numerator above 16,777,215 x Q.
    |row| (row.shortest, row.over) = (16_777_216, 1),
    |row| row.shortest = 83_886_076,
    |row| (row.shortest, row.over) = (141_282_940_780_801, 8_421_120),
    |row| row.shortest = u64::MAX,
    // Twice the numerator, or 16,777,215 x Q, is not what 64 bits keep of it.
    |row| row.shortest = 1 << 63,
    |row| row.shortest = (1 << 63) + 50,
    |row| row.over = INVERSE,
    |row| (row.shortest, row.over) = (5, INVERSE.wrapping_mul(5)),
    |row| (row.longest, row.shortest, row.over) = (0, 0, 0),
    |row| (row.longest, row.shortest, row.over) = (u64::MAX, u64::MAX, u64::MAX),
];

/// 16,777,215 times this leaves 1 in 64 bits.
const INVERSE: u64 = 0xFFFE_FFFF_FEFF_FFFF;

fn assert_unsound(mut board: [Row; 16]) {
    assert_eq!(ask(&board, 1), refused(17, 0), "{:?}", board[7]);
    assert_eq!(ask_to_end(&board, 1), refused(17, 0), "{:?}", board[7]);
    assert_eq!(note_refusal(&record(99), 387, &board), refused(17, 0));
    let before = board;
    assert_eq!(withdraw(&mut board, 3), refused(17, 0));
    assert_eq!(board, before);
}

#[test]
fn every_way_to_be_unsound() {
    assert_eq!(INVERSE.wrapping_mul(16_777_215), 1);
    for spoil in SPOILS {
        let mut board = full_board();
        spoil(&mut board[7]);
        assert_unsound(board);
    }
}

#[test]
fn a_free_row_is_all_zeros() {
    let figures: [fn(&mut Row) -> &mut u64; 7] = [
        |row| &mut row.id,
        |row| &mut row.nodes,
        |row| &mut row.sum,
        |row| &mut row.largest,
        |row| &mut row.longest,
        |row| &mut row.shortest,
        |row| &mut row.over,
    ];
    for figure in figures {
        for value in [99, 1 << 32, u64::MAX] {
            let mut board = full_board();
            board[7] = Row::default();
            *figure(&mut board[7]) = value;
            assert_unsound(board);
        }
    }
}

/// Longest, shortest and over at their limits.
const STEPS: [[u64; 3]; 8] = [
    [1, 1, 1],
    [1, 1, 2],
    [65_790, 2, 3],
    [65_790, 16_777_215, 1],
    [1, 4_210_560, 8_421_119],
    [65_790, 4_210_560, 8_421_120],
    [1, 141_282_940_780_800, 8_421_120],
    [65_790, 141_282_940_780_800, 8_421_120],
];

#[test]
fn the_limits_of_a_sound_row() {
    let limits = [(1, 1, 1, 1), (65_535, 64, 128_000_000, 2_000_000)];
    for (id, nodes, sum, largest) in limits {
        for [longest, shortest, over] in STEPS {
            let mut board = [Row::default(); 16];
            board[15] = Row {
                id,
                nodes,
                sum,
                largest,
                longest,
                shortest,
                over,
            };
            assert_eq!(ask(&board, 64).refusal, 0, "{:?}", board[15]);
            assert_eq!(ask_to_end(&board, 64).refusal, 0);
            assert_eq!(withdraw(&mut board, id), yes(15));
            assert_eq!(board, [Row::default(); 16]);
        }
    }
}

#[test]
fn the_verdict_turns_at_equality() {
    let mut board = [Row::default(); 16];
    let tight = |sum| Row {
        id: 1,
        nodes: 4,
        sum,
        largest: 600_000,
        ..row(1)
    };
    // Three cores: 1,800,000 + 2 x 600,000 = 3,000,000.
    board[0] = tight(1_800_000);
    assert_eq!(ask(&board, 3), yes(1));
    board[0] = tight(1_800_001);
    assert_eq!(ask(&board, 3), yes(0));
}
