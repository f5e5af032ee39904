//! The dispatch cost: an execution is what is written plus the cost, and a
//! join pays nothing.

use reference::{ask, note, plan, Row, PLAN_WORDS};

const OLD: u64 = 0xA5A5;
const LISTED: [u8; 11] = [1, 3, 6, 3, 3, 0, 1, 0, 1, 1, 1];

fn planned(record: &[u8], cost: u64) -> Vec<u64> {
    let mut words = [OLD; PLAN_WORDS];
    let answer = plan(record, &mut words, cost);
    assert_eq!(answer.refusal, 0, "cost {cost}");
    assert!(words[answer.value as usize..].iter().all(|&w| w == OLD));
    words[..answer.value as usize].to_vec()
}

/// The refusal and its place, the same from planning and from noting on an
/// empty board; nothing that was lent has changed.
fn refusal(record: &[u8], cost: u64) -> (u64, u64) {
    let mut words = [OLD; PLAN_WORDS];
    let answer = plan(record, &mut words, cost);
    assert_ne!(answer.refusal, 0, "cost {cost}");
    assert_eq!(words, [OLD; PLAN_WORDS]);
    let refusal = (answer.refusal, answer.place);
    let free = [Row::default(); 16];
    assert_eq!(note_refusal(record, PLAN_WORDS, &free, cost), refusal);
    refusal
}

fn note_refusal(record: &[u8], lent: usize, board: &[Row], cost: u64) -> (u64, u64) {
    let mut words = vec![OLD; lent];
    let mut rows = board.to_vec();
    let answer = note(record, &mut words, &mut rows, cost);
    assert!(words.iter().all(|&word| word == OLD));
    assert_eq!(rows, board);
    (answer.refusal, answer.place)
}

#[test]
fn one_step() {
    let step = [1, 7, 10, 1, 5, 0];
    assert_eq!(planned(&step, 0), [5, 1, 1, 1, 5, 50, 0, 50, 500_000]);
    // It runs 7. Heavy, since 20 - 7 is above 7; 7 x 7 / 70 is seven tenths.
    assert_eq!(planned(&step, 2), [7, 1, 1, 1, 7, 70, 0, 70, 700_000]);
    // It runs 10, as long as the period: light.
    assert_eq!(planned(&step, 5), [10, 1, 1, 1, 10, 100, 0, 100, 1_000_000]);
    assert_eq!(refusal(&step, 6), (11, 0));
}

#[test]
fn the_listing() {
    // 3, 1, 1 become 4, 2, 2, and nodes 0 and 2 now end together, at 4: two
    // segments of two threads and length 2. Work 8; 2 x (12 - 4) is above it,
    // so Q is 8, and each segment has 6 x 2 x 2 = 24.
    let mut expected = vec![8, 2, 3, 2, 2, 24, 2, 2, 24];
    // 4 x 8 / 48 and 2 x 8 / 24 are two thirds.
    expected.extend([0, 48, 666_667, 0, 24, 666_667, 24, 24, 666_667]);
    assert_eq!(planned(&LISTED, 1), expected);
    assert_eq!(planned(&LISTED, 0)[..6], [5, 3, 3, 2, 1, 12]);
}

#[test]
fn a_light_and_a_heavy_segment() {
    let mut four = [1, 9, 4, 4, 2, 0, 1, 1, 0, 1, 1, 0, 1, 1, 0];
    assert_eq!(refusal(&four, 1), (11, 0));
    four[2] = 5;
    // 2, 1, 1, 1 become 3, 2, 2, 2: path 5, work 9, and 2T - P is 5. One
    // thread is light, three are heavy. L is 3 and H 6, so Q is 12; the light
    // segment has 3 x 6 = 18, the heavy one (10 - 3) x 6 = 42.
    let mut expected = vec![12, 2, 4, 1, 3, 18, 3, 2, 42];
    // 3 x 12 / 18 is two, 2 x 12 / 42 four sevenths.
    expected.extend([0, 18, 2_000_000]);
    expected.extend([[18, 42, 571_429]; 3].concat());
    assert_eq!(planned(&four, 1), expected);
}

#[test]
fn a_join_pays_nothing() {
    // A chain of 1, a join, 2. The steps become 2 and 3: path and work 5, all
    // heavy in a period of 9. 2 x 5 / 18 and 3 x 5 / 27 are five ninths.
    let chain = [2, 7, 9, 3, 1, 0, 0, 1, 0, 2, 1, 1];
    let mut expected = vec![5, 2, 3, 1, 2, 18, 1, 3, 27];
    expected.extend([0, 18, 555_556, 18, 0, 0, 18, 27, 555_556]);
    assert_eq!(planned(&chain, 1), expected);
}

#[test]
fn one_step_pays_among_63_joins() {
    // The chain runs 1 + 255, and that is its period.
    let mut chain = vec![2, 7, 0x80, 2, 64, 0, 0];
    chain.extend((0..62).flat_map(|parent| [0, 1, parent]));
    chain.extend([1, 1, 62]);
    let words = planned(&chain, 255);
    assert_eq!(words[..6], [256, 1, 64, 1, 256, 65_536]);
    assert!(words[6..6 + 3 * 63].iter().all(|&word| word == 0));
    assert_eq!(words[6 + 3 * 63..], [0, 65_536, 1_000_000]);
}

#[test]
fn the_path_fits_up_to_a_cost() {
    for cost in 0..=126 {
        let step = [1, 7, cost + 1, 1, 1, 0];
        let cost = u64::from(cost);
        assert_eq!(planned(&step, cost)[4], cost + 1);
        assert_eq!(refusal(&step, cost + 1), (11, 0));
    }
    // A chain of three pays three times.
    let chain = [1, 7, 8, 3, 1, 0, 1, 1, 0, 1, 1, 1];
    assert_eq!(planned(&chain, 1)[0], 6);
    assert_eq!(refusal(&chain, 2), (11, 0));
}

#[test]
fn the_cost_is_paid_once_and_not_for_each_parent() {
    // 63 loose steps and one that waits for all of them; 1 becomes 11. Path
    // 22 and work 704, and 2T - P is 22: 63 threads are heavy, one is light.
    // L is 11 and H 693, so Q is 1,386; (44 - 11) x 693 and 11 x 693.
    let mut gather = vec![1, 7, 22, 64];
    gather.extend([[1, 0]; 63].concat());
    gather.extend([1, 63]);
    gather.extend(0..63);
    let mut expected = vec![1_386, 2, 64, 63, 11, 22_869, 1, 11, 7_623];
    expected.extend([[0, 22_869, 666_667]; 63].concat());
    expected.extend([22_869, 7_623, 2_000_000]);
    assert_eq!(planned(&gather, 10), expected);
    assert_eq!(refusal(&gather, 11), (11, 0));
    gather[2] = 21;
    assert_eq!(refusal(&gather, 10), (11, 0));
}

const LARGEST_PERIOD: [u8; 4] = [0xFF, 0xFF, 0xFF, 7];

fn of_64(period: [u8; 4], node: impl Fn(u8) -> Vec<u8>) -> Vec<u8> {
    let head = [1, 7].into_iter().chain(period).chain([64]);
    head.chain((0..64).flat_map(node)).collect()
}

#[test]
fn the_longest_steps_side_by_side() {
    // 65,535 become 65,790, so the work is 4,210,560, and Q is that: all run in
    // one heavy segment. 65,790 / 16,777,215 is 3,921.4 millionths.
    let loose = of_64(LARGEST_PERIOD, |_| vec![0xFF, 0xFF, 3, 0]);
    let all = 16_777_215 * 4_210_560;
    let mut expected = vec![4_210_560, 1, 64, 64, 65_790, all];
    expected.extend([[0, all, 3_922]; 64].concat());
    assert_eq!(planned(&loose, 255), expected);
}

fn longest_chain(period: [u8; 4]) -> Vec<u8> {
    of_64(period, |node| match node {
        0 => vec![0xFF, 0xFF, 3, 0],
        _ => vec![0xFF, 0xFF, 3, 1, node - 1],
    })
}

#[test]
fn the_longest_path() {
    // Work and path are 4,210,560. All heavy in the longest period, each of
    // density 4,210,560 / 16,777,215, which is 250,968.9 millionths. All light
    // in a period as long as the path, where each step has just its own time.
    let tight = [0x80, 0xFF, 0x80, 2];
    let periods = [(LARGEST_PERIOD, 16_777_215), (tight, 4_210_560)];
    for ((bytes, period), density) in periods.into_iter().zip([250_969, 1_000_000]) {
        let share = period * 65_790;
        let mut expected = vec![4_210_560, 64, 64];
        expected.extend([[1, 65_790, share]; 64].concat());
        for node in 0..64 {
            expected.extend([node * share, share, density]);
        }
        assert_eq!(planned(&longest_chain(bytes), 255), expected);
    }
    // One unit less.
    let short = longest_chain([0xFF, 0xFE, 0x80, 2]);
    assert_eq!(refusal(&short, 255), (11, 0));
    assert_eq!(planned(&short, 254)[0], 4_210_496);
}

#[test]
fn the_greatest_q() {
    // Node 0 runs 65,790, the others one less: work 4,210,497, path 65,790.
    // In a period of 2,138,143, 2T - P is 4,210,496, so the last unit is light.
    let loose = |low| {
        of_64([low, 0xC0, 0x82, 1], |node| match node {
            0 => vec![0xFF, 0xFF, 3, 0],
            _ => vec![0xFE, 0xFF, 3, 0],
        })
    };
    let heavy = 64 * 65_789;
    let share = (2 * 2_138_143 - 1) * heavy;
    let mut expected = vec![2 * heavy, 2, 64, 64, 65_789, share, 1, 1, heavy];
    // 65,790 x 2 / 4,276,286 and 65,789 x 2 / 4,276,285: 30,769.7 and .2.
    expected.extend([0, share + heavy, 30_770]);
    expected.extend([[0, share, 30_770]; 63].concat());
    assert_eq!(planned(&loose(0x9F), 255), expected);
    // One unit more, and nothing is light.
    assert_eq!(planned(&loose(0xA0), 255)[0], 4_210_497);
}

#[test]
fn ranges_are_of_what_is_written() {
    for cost in [0, 1, 255] {
        // 65,536; then no execution in edition 1; then none in edition 2.
        let above = [1, 7, 9, 1, 0x80, 0x80, 4, 0];
        assert_eq!(refusal(&above, cost), (7, 4));
        assert_eq!(refusal(&[1, 7, 9, 1, 0, 0], cost), (7, 4));
        assert_eq!(refusal(&[2, 7, 9, 1, 0, 0], cost), (21, 0));
    }
}

/// From the first to the last; of some the low bits alone would be in range.
const TOO_DEAR: [u64; 5] = [256, 257, 1 << 32, (1 << 63) + 255, u64::MAX];

#[test]
fn no_cost_above_255() {
    let step = [1, 7, 0x80, 2, 1, 1, 0];
    assert_eq!(planned(&step, 255)[0], 256);
    for cost in TOO_DEAR {
        assert_eq!(refusal(&step, cost), (26, 0));
    }
}

/// Ids 1 to 16 stand, each with one node of density 500,000.
fn full_board() -> [Row; 16] {
    std::array::from_fn(|at| Row {
        id: at as u64 + 1,
        nodes: 1,
        sum: 500_000,
        largest: 500_000,
        longest: 5,
        shortest: 50,
        over: 5,
    })
}

/// On a full board each is refused by another rule.
const RECORDS: [(&[u8], (u64, u64)); 5] = [
    (&[], (1, 0)),
    (&[2, 7, 9, 1, 0, 0], (21, 0)),
    (&[1, 7, 5, 1, 5, 1, 0], (10, 0)),
    (&[1, 7, 4, 1, 5, 0], (11, 0)),
    (&[1, 7, 10, 1, 5, 0], (12, 0)),
];

#[test]
fn the_cost_goes_before_all_else() {
    let full = full_board();
    let mut unsound = full;
    unsound[5].id = 1;
    for cost in TOO_DEAR {
        for (record, _) in RECORDS {
            assert_eq!(plan(record, &mut [], cost).refusal, 26);
            assert_eq!(refusal(record, cost), (26, 0));
            assert_eq!(note_refusal(record, 386, &unsound, cost), (26, 0));
            for board in [&unsound, &full[1..], &full] {
                assert_eq!(note_refusal(record, 387, board, cost), (26, 0));
            }
        }
    }
}

#[test]
fn an_allowed_cost_changes_no_order() {
    let full = full_board();
    for (record, expected) in RECORDS {
        assert_eq!(note_refusal(record, 386, &full[1..], 255), (16, 0));
        assert_eq!(note_refusal(record, 387, &full[1..], 255), (17, 0));
        assert_eq!(note_refusal(record, 387, &full, 5), expected);
    }
    let new = [1, 99, 10, 1, 5, 0];
    assert_eq!(note_refusal(&new, 387, &full, 5), (13, 0));
    assert_eq!(note_refusal(&new, 387, &full, 6), (11, 0));
}

#[test]
fn each_task_stands_at_its_own_cost() {
    let mut board = [Row::default(); 16];
    let mut words = [OLD; PLAN_WORDS];
    for (id, cost, density) in [(1, 0, 500_000), (2, 2, 700_000), (3, 5, 1_000_000)] {
        let at = usize::from(id) - 1;
        let answer = note(&[1, id, 10, 1, 5, 0], &mut words, &mut board, cost);
        assert_eq!((answer.refusal, answer.value), (0, at as u64));
        assert_eq!((board[at].sum, board[at].largest), (density, density));
        // One core bears the first alone, two cores the first two.
        assert_eq!(ask(&board, 1).value, u64::from(id == 1));
        assert_eq!(ask(&board, 2).value, u64::from(id <= 2));
    }
}
