//! The verdict for steps that run to their end, and the three figures that a
//! row has for it.

use reference::{ask, ask_to_end, note, withdraw, Answer, Row, PLAN_WORDS};

const LISTED: [u8; 11] = [1, 3, 6, 3, 3, 0, 1, 0, 1, 1, 1];

fn yes(value: u64) -> Answer {
    Answer {
        value,
        ..Answer::default()
    }
}

fn refused(refusal: u64) -> Answer {
    Answer {
        refusal,
        ..Answer::default()
    }
}

fn board_at(records: &[&[u8]], cost: u64) -> [Row; 16] {
    let mut board = [Row::default(); 16];
    for (at, record) in records.iter().enumerate() {
        let answer = note(record, &mut [0; PLAN_WORDS], &mut board, cost);
        assert_eq!(answer, yes(at as u64));
    }
    board
}

fn board_with(records: &[&[u8]]) -> [Row; 16] {
    board_at(records, 0)
}

/// Longest, shortest and over in the row of that task.
fn steps(record: &[u8], cost: u64) -> [u64; 3] {
    let row = board_at(&[record], cost)[0];
    [row.longest, row.shortest, row.over]
}

/// Rows that a caller made up: sum and largest density, then the steps.
fn made_up(rows: &[([u64; 2], [u64; 3])]) -> [Row; 16] {
    let mut board = [Row::default(); 16];
    for (at, &([sum, largest], [longest, shortest, over])) in rows.iter().enumerate() {
        board[at] = Row {
            id: at as u64 + 1,
            nodes: 64,
            sum,
            largest,
            longest,
            shortest,
            over,
        };
    }
    board
}

/// A yes, which one more in the first row's sum makes a no.
fn assert_tight(mut board: [Row; 16], cores: u64) {
    assert_eq!(ask_to_end(&board, cores), yes(1));
    board[0].sum += 1;
    assert_eq!(ask_to_end(&board, cores), yes(0));
}

#[test]
fn the_figures_of_a_row() {
    assert_eq!(steps(&[1, 7, 5, 1, 5, 0], 0), [5, 25, 5]);
    let chain = [1, 8, 3, 3, 1, 0, 1, 1, 0, 1, 1, 1];
    assert_eq!(steps(&chain, 0), [1, 3, 3]);
    // Its longest node has 30 over 5, the other two have 12.
    assert_eq!(steps(&LISTED, 0), [3, 12, 5]);
    // The longest one has the smallest deadline: 6, and the others 18.
    let four = [1, 9, 4, 4, 2, 0, 1, 1, 0, 1, 1, 0, 1, 1, 0];
    assert_eq!(steps(&four, 0), [2, 6, 6]);
}

#[test]
fn the_cost_is_in_the_figures() {
    let step = [1, 7, 10, 1, 5, 0];
    assert_eq!(steps(&step, 0), [5, 50, 5]);
    assert_eq!(steps(&step, 2), [7, 70, 7]);
    assert_eq!(steps(&LISTED, 1), [4, 24, 8]);
    let longest = [1, 7, 0xFF, 0xFF, 0xFF, 7, 1, 0xFF, 0xFF, 3, 0];
    assert_eq!(steps(&longest, 255), [65_790, 16_777_215 * 65_790, 65_790]);
}

#[test]
fn a_join_does_not_count() {
    assert_eq!(steps(&[2, 7, 9, 2, 3, 0, 0, 1, 0], 0), [3, 27, 3]);
    assert_eq!(steps(&[2, 7, 9, 2, 0, 0, 3, 1, 0], 0), [3, 27, 3]);
    // 1, a join, 2, at cost 4: steps of 5 and 6, Q 11, deadlines 500 and 600.
    let chain = [2, 7, 100, 3, 1, 0, 0, 1, 0, 2, 1, 1];
    assert_eq!(steps(&chain, 4), [6, 500, 11]);
    // 6 x 11 / 500 is 132,000 millionths; the two densities are 110,000.
    let board = board_at(&[&chain], 4);
    assert_eq!((board[0].sum, board[0].largest), (220_000, 110_000));
    assert_eq!(ask_to_end(&board, 1), yes(1));
}

#[test]
fn one_node_in_a_long_period() {
    // 5 in 1,000: Q 5, deadline 5,000, S, M and r all 5,000.
    let record = [1, 7, 0xE8, 7, 1, 5, 0];
    let board = board_with(&[&record]);
    assert_eq!(steps(&record, 0), [5, 5_000, 5]);
    for cores in 1..=64 {
        assert_eq!(ask_to_end(&board, cores), yes(1));
    }
}

#[test]
fn the_listing() {
    // 3 x 5 / 12 is 1,250,000 millionths, more than a core has.
    let board = board_with(&[&LISTED]);
    assert_eq!(ask(&board, 2), yes(1));
    for cores in 1..=64 {
        assert_eq!(ask_to_end(&board, cores), yes(0));
    }
}

#[test]
fn empty_board_and_core_counts() {
    let board = [Row::default(); 16];
    for cores in 1..=64 {
        assert_eq!(ask_to_end(&board, cores), yes(1));
    }
    for cores in [0, 65, 1 << 32, (1 << 32) + 1, u64::MAX] {
        assert_eq!(ask_to_end(&board, cores), refused(15));
        assert_eq!(ask_to_end(&board_with(&[&LISTED]), cores), refused(15));
        assert_eq!(ask_to_end(&board[1..], cores), refused(17));
    }
}

#[test]
fn half_a_core_each_way() {
    // 5 in 10: S, M and r are each half of what a core has.
    let half = board_with(&[&[1, 7, 10, 1, 5, 0]]);
    // 5 in 9: five ninths.
    let more = board_with(&[&[1, 7, 9, 1, 5, 0]]);
    for cores in 1..=64 {
        assert_eq!(ask_to_end(&half, cores), yes(1));
        assert_eq!(ask_to_end(&more, cores), yes(0));
        assert_eq!(ask(&more, cores), yes(1));
    }
}

#[test]
fn the_verdict_turns_at_equality() {
    // r is 3 / 10. Three cores: 900,000 + 2 x 600,000 + 3 x 300,000.
    assert_tight(made_up(&[([900_000, 600_000], [3, 10, 1])]), 3);
    for cores in 1..=64 {
        let sum = 1_000_000 * cores - 600_000 * (cores - 1) - 300_000 * cores;
        assert_tight(made_up(&[([sum, 600_000], [3, 10, 1])]), cores);
    }
}

#[test]
fn the_longest_of_one_task_and_the_shortest_of_another() {
    // 1 in 8 has the shortest deadline, a step in 1,000 the longest execution:
    // 131,000 + 6 / 8 is less than a core has, 132,000 + 7 / 8 is more.
    let short = [1, 2, 8, 1, 1, 0];
    for (execution, value) in [(6, 1), (7, 0)] {
        let long = [1, 1, 0xE8, 7, 1, execution, 0];
        for records in [[&long[..], &short], [&short, &long]] {
            let board = board_with(&records);
            for cores in [1, 2, 64] {
                assert_eq!(ask_to_end(&board, cores), yes(value));
            }
            for id in [1, 2] {
                let mut alone = board;
                withdraw(&mut alone, id);
                assert_eq!(ask_to_end(&alone, 1), yes(1));
            }
        }
    }
}

#[test]
fn r_is_rounded_up_once() {
    // 333,333 and a third, three times: 1,000,002.
    assert_tight(made_up(&[([999_998, 500_000], [1, 3, 1])]), 3);
    // 666,666 and two thirds: not twice 333,334.
    assert_tight(made_up(&[([333_333, 333_333], [2, 3, 1])]), 1);
    // A whole number stays as it is.
    assert_tight(made_up(&[([500_000, 500_000], [1, 2, 1])]), 1);
    // The least there is: a 16,777,215th of 1,000,000.
    let least = [1, 141_282_940_780_800, 8_421_120];
    assert_tight(made_up(&[([999_999, 500_000], least)]), 1);
}

#[test]
fn deadlines_are_fractions() {
    // 10 / 3 is less than 7 / 2, though 10 is more than 7.
    for rows in [[[1, 10, 3], [1, 7, 2]], [[1, 7, 2], [1, 10, 3]]] {
        let [one, other] = rows.map(|steps| ([350_000, 350_000], steps));
        assert_tight(made_up(&[one, other]), 1);
    }
    // 10 / 3 again, under another Q.
    let rows = [[1, 10, 3], [1, 28_070_400, 8_421_120]];
    let [one, other] = rows.map(|steps| ([350_000, 350_000], steps));
    assert_tight(made_up(&[one, other]), 1);
}

#[test]
fn deadlines_whose_products_need_more_than_64_bits() {
    // 16,777,215 and 1,000,000: 65,790 over the second.
    let late = [1, 141_282_940_780_800, 8_421_120];
    let soon = [65_790, 8_421_119_000_000, 8_421_119];
    for rows in [[late, soon], [soon, late]] {
        let [one, other] = rows.map(|steps| ([467_105, 467_105], steps));
        assert_tight(made_up(&[one, other]), 1);
    }
}

#[test]
fn the_greatest_r() {
    // 65,790 over a half, on 64 cores.
    let board = made_up(&[([128_000_000, 2_000_000], [65_790, 1, 2])]);
    assert_eq!(ask_to_end(&board, 64), yes(0));
}

/// A small generator; the same numbers on every run.
struct Random(u64);

impl Random {
    fn between(&mut self, low: u64, high: u64) -> u64 {
        self.0 ^= self.0 << 13;
        self.0 ^= self.0 >> 7;
        self.0 ^= self.0 << 17;
        low + (self.0 >> 16) % (high - low + 1)
    }

    /// A sound board of up to sixteen tasks.
    fn board(&mut self) -> [Row; 16] {
        let standing = self.between(0, 16);
        let rows: Vec<_> = (0..standing).map(|_| self.row()).collect();
        made_up(&rows)
    }

    fn row(&mut self) -> ([u64; 2], [u64; 3]) {
        let largest = self.between(1, 300_000);
        let sum = self.between(largest, 4 * largest);
        let over = self.between(1, 8_421_120);
        let shortest = self.between(over, 1_000_000 * over);
        ([sum, largest], [self.between(1, 65_790), shortest, over])
    }
}

#[test]
fn a_yes_to_the_end_is_a_yes_of_ask() {
    let mut random = Random(0x2545_F491_4F6C_DD1D);
    let (mut both, mut ask_alone) = (0, 0);
    for _ in 0..20_000 {
        let board = random.board();
        let cores = random.between(1, 64);
        let (verdict, to_end) = (ask(&board, cores), ask_to_end(&board, cores));
        assert_eq!((verdict.refusal, to_end.refusal), (0, 0));
        assert!(to_end.value <= verdict.value, "{cores} cores: {board:?}");
        both += to_end.value;
        ask_alone += verdict.value - to_end.value;
    }
    assert!(both > 2_000, "only {both} were a yes to the end");
    assert!(ask_alone > 2_000, "only {ask_alone} were of ask alone");
}
