//! Admitting, which is noting but for a task that would make the verdict a no.

use reference::{admit, ask, note, withdraw, Answer, Row, PLAN_WORDS};

const OLD: u64 = 0xA5A5;

/// The document's chain of three: each step has just its own time.
const CHAIN: [u8; 12] = [1, 8, 3, 3, 1, 0, 1, 1, 0, 1, 1, 1];

/// A unit in the longest period: density 1.
const LEAST: [u8; 9] = [1, 9, 0xFF, 0xFF, 0xFF, 7, 1, 1, 0];

type Board = [Row; 16];

/// One node of execution 5 in a period of 10: density 500,000.
fn half(id: u8) -> [u8; 6] {
    [1, id, 10, 1, 5, 0]
}

fn row(id: u64) -> Row {
    Row {
        id,
        nodes: 1,
        sum: 500_000,
        largest: 500_000,
        longest: 5,
        shortest: 50,
        over: 5,
    }
}

/// One row that a caller made up.
fn loaded(sum: u64, largest: u64) -> Board {
    let mut board = Board::default();
    board[0] = Row {
        nodes: 64,
        sum,
        largest,
        ..row(1)
    };
    board
}

fn yes(value: u64) -> Answer {
    Answer {
        value,
        ..Answer::default()
    }
}

fn refused(refusal: u64, place: u64) -> Answer {
    Answer {
        refusal,
        place,
        ..Answer::default()
    }
}

fn full_board() -> Board {
    std::array::from_fn(|at| row(at as u64 + 1))
}

/// Admits at that cost, and checks that a refusal has touched nothing.
fn refusal_at(record: &[u8], lent: usize, board: &[Row], cores: u64, cost: u64) -> Answer {
    let mut words = vec![OLD; lent];
    let mut rows = board.to_vec();
    let answer = admit(record, &mut words, &mut rows, cores, cost);
    assert_ne!(answer.refusal, 0);
    assert!(words.iter().all(|&word| word == OLD));
    assert_eq!(rows, board);
    answer
}

fn refusal(record: &[u8], board: &[Row], cores: u64) -> Answer {
    refusal_at(record, PLAN_WORDS, board, cores, 0)
}

/// Admits, and checks that everything is as noting has it.
fn kept(record: &[u8], board: &Board, cores: u64) -> (Answer, Board) {
    let (mut words, mut rows) = ([OLD; PLAN_WORDS], *board);
    let answer = admit(record, &mut words, &mut rows, cores, 0);
    assert_eq!(answer.refusal, 0, "{cores} cores");
    let (mut noted_words, mut noted_rows) = ([OLD; PLAN_WORDS], *board);
    let noted = note(record, &mut noted_words, &mut noted_rows, 0);
    assert_eq!((answer, words, rows), (noted, noted_words, noted_rows));
    (answer, rows)
}

#[test]
fn what_goes_before_the_record() {
    let mut unsound = full_board();
    unsound[5].id = 1;
    for board in [&unsound[..], &unsound[1..], &[]] {
        for cores in [0, 65] {
            assert_eq!(refusal_at(&[], 386, board, cores, 256), refused(26, 0));
            assert_eq!(refusal_at(&[], 386, board, cores, 255), refused(16, 0));
            assert_eq!(refusal_at(&[], 387, board, cores, 255), refused(17, 0));
        }
    }
    for cores in [0, 65, 1 << 32, (1 << 32) + 1, u64::MAX] {
        for record in [&[], &CHAIN[..], &half(1), &half(99)] {
            assert_eq!(refusal(record, &full_board(), cores), refused(15, 0));
            assert_eq!(refusal(record, &Board::default(), cores), refused(15, 0));
        }
    }
}

#[test]
fn the_record_goes_before_the_verdict() {
    // A no for one core, and full.
    let full = full_board();
    for cores in [1, 64] {
        assert_eq!(refusal(&[], &full, cores), refused(1, 0));
        assert_eq!(refusal(&[1, 0x81, 0], &full, cores), refused(18, 1));
        assert_eq!(
            refusal(&[2, 7, 9, 1, 0, 1, 0], &full, cores),
            refused(21, 0)
        );
        let ring = Answer {
            ring: 1,
            ..refused(10, 0)
        };
        assert_eq!(refusal(&[1, 7, 4, 1, 5, 1, 0], &full, cores), ring);
        assert_eq!(refusal(&[1, 7, 4, 1, 5, 0], &full, cores), refused(11, 0));
    }
}

#[test]
fn id_and_row_go_before_the_verdict() {
    let mut board = full_board();
    for cores in [1, 16, 64] {
        assert_eq!(refusal(&half(7), &board, cores), refused(12, 0));
        assert_eq!(refusal(&half(99), &board, cores), refused(13, 0));
        assert_eq!(refusal(&CHAIN, &board, cores), refused(12, 0));
    }
    board[7] = Row::default();
    assert_eq!(refusal(&half(7), &board, 1), refused(12, 0));
    assert_eq!(refusal(&half(99), &board, 1), refused(20, 0));
    assert_eq!(refusal(&CHAIN, &board, 64), refused(20, 0));
    assert_eq!(kept(&half(99), &board, 64).0, yes(7));
}

#[test]
fn the_chain_of_three_fits_nowhere() {
    for cores in 1..=64 {
        let free = Board::default();
        assert_eq!(refusal(&CHAIN, &free, cores), refused(20, 0));
    }
}

#[test]
fn one_node_that_takes_a_whole_core() {
    let whole = [1, 7, 5, 1, 5, 0];
    for cores in 1..=64 {
        // 1,000,000 + (m - 1) x 1,000,000: beside it not the least more.
        let (answer, board) = kept(&whole, &Board::default(), cores);
        assert_eq!(answer, yes(0));
        assert_eq!((board[0].sum, board[0].largest), (1_000_000, 1_000_000));
        assert_eq!(ask(&board, cores), yes(1));
        assert_eq!(refusal(&LEAST, &board, cores), refused(20, 0));
    }
}

#[test]
fn the_guard_turns_at_equality() {
    for cores in 1..=64 {
        // S + 500,000 + (m - 1) x 500,000 = m x 1,000,000.
        let sum = cores * 500_000;
        let tight = loaded(sum, 500_000);
        assert_eq!(kept(&half(9), &tight, cores).0, yes(1));
        let mut over = tight;
        over[1] = Row {
            sum: 1,
            largest: 1,
            ..row(2)
        };
        assert_eq!(ask(&over, cores), yes(1));
        assert_eq!(refusal(&half(9), &over, cores), refused(20, 0));
    }
}

#[test]
fn the_largest_is_the_tasks_or_the_boards() {
    // Three cores: 1,300,000 + 500,000 + 2 x 600,000 = 3,000,000.
    assert_eq!(kept(&half(9), &loaded(1_300_000, 600_000), 3).0, yes(1));
    let over = loaded(1_300_001, 600_000);
    assert_eq!(refusal(&half(9), &over, 3), refused(20, 0));
    // 1,500,000 + 500,000 + 2 x 500,000, and before the task came 100,000 was
    // the largest.
    assert_eq!(kept(&half(9), &loaded(1_500_000, 100_000), 3).0, yes(1));
    let over = loaded(1_500_001, 100_000);
    assert_eq!(refusal(&half(9), &over, 3), refused(20, 0));
}

#[test]
fn a_no_from_before_stays_one() {
    for cores in 1..=64 {
        let board = loaded(64_000_000, 1_000_000);
        assert_eq!(ask(&board, cores), yes(0));
        assert_eq!(refusal(&LEAST, &board, cores), refused(20, 0));
        // A step that has half its time makes a no for every number of cores.
        let board = loaded(2_000_000, 2_000_000);
        assert_eq!(refusal(&LEAST, &board, cores), refused(20, 0));
    }
}

#[test]
fn the_cost_decides_too() {
    // 5 in 10 beside 5 in 10, and 7 in 10 with a cost of 2.
    let mut board = loaded(500_000, 500_000);
    assert_eq!(refusal_at(&half(9), 387, &board, 1, 2), refused(20, 0));
    let answer = admit(&half(9), &mut [OLD; PLAN_WORDS], &mut board, 1, 0);
    assert_eq!(answer, yes(1));
}

#[test]
fn one_goes_and_the_next_is_kept() {
    let (_, board) = kept(&half(1), &Board::default(), 1);
    let (_, mut board) = kept(&half(2), &board, 1);
    assert_eq!(refusal(&half(3), &board, 1), refused(20, 0));
    assert_eq!(withdraw(&mut board, 1), yes(0));
    assert_eq!(kept(&half(3), &board, 1).0, yes(0));
}

/// A small generator; the same numbers on every run.
struct Random(u64);

impl Random {
    fn between(&mut self, low: u64, high: u64) -> u64 {
        self.0 ^= self.0 << 13;
        self.0 ^= self.0 >> 7;
        self.0 ^= self.0 << 17;
        low + (self.0 >> 16) % (high - low + 1)
    }

    /// Up to four nodes, each of which may wait for the one before. The more
    /// cores there are, the shorter the periods.
    fn record(&mut self, cores: u64) -> Vec<u8> {
        let count = self.between(1, 4);
        let period = self.between(1, 16 + 100 / cores);
        let mut record = vec![1, self.between(1, 24), period, count];
        for node in 0..count {
            record.push(self.between(1, 4));
            match node > 0 && self.between(0, 1) == 1 {
                true => record.extend([1, node - 1]),
                false => record.push(0),
            }
        }
        record.into_iter().map(|number| number as u8).collect()
    }
}

/// Admits as noting would, unless the verdict is then a no; returns the
/// refusal.
fn guarded(record: &[u8], board: &mut Board, cores: u64, cost: u64) -> u64 {
    let before = *board;
    let mut words = [OLD; PLAN_WORDS];
    let answer = admit(record, &mut words, board, cores, cost);
    let (mut noted_words, mut noted_board) = ([OLD; PLAN_WORDS], before);
    let noted = note(record, &mut noted_words, &mut noted_board, cost);
    match noted.refusal == 0 && ask(&noted_board, cores) == yes(0) {
        true => assert_eq!((answer, words), (refused(20, 0), [OLD; PLAN_WORDS])),
        false => assert_eq!((answer, words), (noted, noted_words)),
    }
    let expected = if answer.refusal == 0 {
        noted_board
    } else {
        before
    };
    assert_eq!(*board, expected);
    answer.refusal
}

#[test]
fn the_verdict_stays_a_yes() {
    let mut random = Random(0x2545_F491_4F6C_DD1D);
    let (mut kept, mut turned_away) = (0, 0);
    for cores in (1..=64).cycle().take(640) {
        let mut board = Board::default();
        for _ in 0..100 {
            if random.between(0, 3) == 0 {
                withdraw(&mut board, random.between(0, 25));
            } else {
                let cost = random.between(0, 2);
                let refusal = guarded(&random.record(cores), &mut board, cores, cost);
                kept += u64::from(refusal == 0);
                turned_away += u64::from(refusal == 20);
            }
            assert_eq!(ask(&board, cores), yes(1), "{cores} cores: {board:?}");
        }
    }
    assert!(kept > 5_000, "only {kept} were kept");
    assert!(turned_away > 5_000, "only {turned_away} were turned away");
}
