//! Judging foreign plans: what passes, each rule broken, the order of refusals,
//! and what `plancheck` prints.

use reference::{check_sheet, judge, plan, sheet, write_plan, Answer, PLAN_WORDS};

const OLD: u64 = 0xA5A5_A5A5_A5A5_A5A5;

/// The largest number of nine groups.
const LARGEST: u64 = (1 << 63) - 1;

/// Document 01's listing, its record with a segment of each kind, and a chain in a
/// period as long as its path.
const LISTING: &[u8] = &[1, 3, 6, 3, 3, 0, 1, 0, 1, 1, 1];
const FOUR: &[u8] = &[1, 9, 4, 4, 2, 0, 1, 1, 0, 1, 1, 0, 1, 1, 0];
const CHAIN: &[u8] = &[1, 7, 3, 3, 1, 0, 1, 1, 0, 1, 1, 1];

/// Steps of 2 and 4, a join that waits for both, and a step of 1 after it.
const JOINED: &[u8] = &[2, 9, 10, 4, 2, 0, 4, 0, 0, 2, 0, 1, 1, 1, 2];

fn yes(value: u64) -> Answer {
    Answer {
        value,
        ..Answer::default()
    }
}

fn refused(refusal: u64, place: u64) -> Answer {
    Answer {
        refusal,
        place,
        ..Answer::default()
    }
}

fn broken(rule: u64) -> Answer {
    refused(25, rule)
}

/// An id and a plan's words.
#[derive(Clone)]
struct Foreign {
    id: u64,
    words: Vec<u64>,
}

impl Foreign {
    /// The planner's own.
    fn own(record: &[u8], cost: u64) -> Foreign {
        let mut words = vec![0; PLAN_WORDS];
        let answer = plan(record, &mut words, cost);
        assert_eq!(answer.refusal, 0);
        words.truncate(answer.value as usize);
        let id = reference::read(record).unwrap().id;
        Foreign { id, words }
    }

    /// The listing's, with these numerators over Q: all else follows from them.
    fn listing(over: u64, numerators: [u64; 3]) -> Foreign {
        let [a, b, c] = numerators;
        let all = a + b + c;
        let density = |execution: u64, deadline: u64| {
            let millionths = u128::from(execution) * u128::from(over) * 1_000_000;
            millionths.div_ceil(deadline.max(1).into()) as u64
        };
        let mut words = vec![over, 3, 3, 2, 1, a, 2, 1, b, 1, 1, c];
        words.extend([0, all, density(3, all)]);
        words.extend([0, a, density(1, a)]);
        words.extend([a, b, density(1, b)]);
        Foreign { id: 3, words }
    }

    fn with(&self, changes: &[(usize, u64)]) -> Foreign {
        let mut changed = self.clone();
        for &(at, word) in changes {
            changed.words[at] = word;
        }
        changed
    }

    fn record(&self) -> Vec<u8> {
        let mut bytes = vec![0; 4_000];
        let mut words = self.words.clone();
        words.resize(PLAN_WORDS, 0);
        let answer = write_plan(&words, &mut bytes, self.id);
        assert_eq!(answer.refusal, 0);
        bytes.truncate(answer.value as usize);
        bytes
    }

    /// Just where it is accepted its words are written, and no other.
    fn judged_at(&self, record: &[u8], cost: u64) -> Answer {
        let mut words = vec![OLD; PLAN_WORDS + 1];
        let answer = judge(record, &self.record(), &mut words, cost);
        let mut expected = vec![OLD; PLAN_WORDS + 1];
        if answer.refusal == 0 {
            expected[..self.words.len()].copy_from_slice(&self.words);
        }
        assert_eq!(words, expected);
        answer
    }

    fn judged(&self, record: &[u8]) -> Answer {
        self.judged_at(record, 0)
    }
}

#[test]
fn our_own_plans_pass() {
    for record in [LISTING, FOUR, CHAIN, JOINED] {
        let own = Foreign::own(record, 0);
        assert_eq!(own.judged(record), yes(own.id));
    }
    for cost in 0..=255 {
        let record = [1, 3, 0xE8, 7, 3, 3, 0, 1, 0, 1, 1, 1];
        assert_eq!(Foreign::own(&record, cost).judged_at(&record, cost), yes(3));
        // At another cost the segments aren't the task's.
        let other = Foreign::own(&record, (cost + 1) % 256);
        assert_eq!(other.judged_at(&record, cost), broken(2));
    }
}

#[test]
fn time_may_be_moved() {
    let own = Foreign::own(LISTING, 0);
    assert_eq!(own.words, Foreign::listing(5, [12, 12, 6]).words);
    let moved = Foreign::listing(5, [13, 11, 6]);
    let record = [
        0x03, 0x05, 0x03, 0x02, 0x01, 0x0d, 0x02, 0x01, 0x0b, 0x01, 0x01, 0x06, 0x03, 0x00, 0x1e,
        0xa0, 0xc2, 0x1e, 0x00, 0x0d, 0xe8, 0xbc, 0x17, 0x0d, 0x0b, 0x92, 0xdf, 0x1b,
    ];
    assert_eq!(moved.record(), record);
    assert_eq!(moved.judged(LISTING), yes(3));
    // Twice work over period is 10 over 6: two threads need at least 6 over 5, one 3.
    for (numerators, answer) in [
        ([6, 21, 3], yes(3)),
        ([21, 6, 3], yes(3)),
        ([5, 22, 3], broken(7)),
        ([22, 5, 3], broken(7)),
        ([14, 14, 2], broken(7)),
        ([24, 6, 0], broken(7)),
        ([3, 21, 6], broken(7)),
        ([2, 22, 6], broken(6)),
        ([0, 24, 6], broken(6)),
        ([24, 0, 6], broken(6)),
    ] {
        let foreign = Foreign::listing(5, numerators);
        assert_eq!(foreign.judged(LISTING), answer, "{numerators:?}");
    }
}

#[test]
fn other_fractions_of_the_same_size() {
    for over in [1, 5, 7, 8_421_119, 8_421_120] {
        let foreign = Foreign::listing(over, [2 * over, 2 * over, 2 * over]);
        assert_eq!(foreign.judged(LISTING), yes(3));
    }
}

#[test]
fn rule_1_the_range_of_over() {
    for over in [0, 8_421_121, 1 << 32 | 5, LARGEST] {
        let own = Foreign::own(LISTING, 0);
        assert_eq!(own.with(&[(0, over)]).judged(LISTING), broken(1));
    }
    // All others hold.
    let over = 8_421_121;
    let foreign = Foreign::listing(over, [2 * over, 2 * over, 2 * over]);
    assert_eq!(foreign.judged(LISTING), broken(1));
}

#[test]
fn rule_2_the_segments() {
    let own = Foreign::own(LISTING, 0);
    for at in [3, 4, 6, 7, 9, 10] {
        for word in [0, 3, LARGEST] {
            assert_eq!(own.with(&[(at, word)]).judged(LISTING), broken(2));
        }
    }
    // One that is cut in two, and two that are put together, though all fits.
    let mut cut = own.clone();
    cut.words.splice(9..12, [1, 1, 3, 1, 0, 3]);
    cut.words[1] = 4;
    assert_eq!(cut.judged(LISTING), broken(2));
    let mut joined = own.clone();
    joined.words.splice(3..9, [2, 2, 24]);
    joined.words[1] = 2;
    assert_eq!(joined.judged(LISTING), broken(2));
}

#[test]
fn rule_3_the_sum_of_numerators() {
    for numerators in [[12, 12, 5], [12, 12, 7], [0, 0, 0], [30, 30, 30]] {
        let foreign = Foreign::listing(5, numerators);
        assert_eq!(foreign.judged(LISTING), broken(3));
    }
    // 30 more than 2^64.
    let own = Foreign::own(LISTING, 0);
    let large = own.with(&[(5, LARGEST), (8, LARGEST), (11, 32)]);
    assert_eq!(large.judged(LISTING), broken(3));
}

#[test]
fn numerators_that_pass_2_to_the_64() {
    // 64 steps in a row.
    let mut record = vec![1, 5, 64, 64, 1, 0];
    (0..63).for_each(|parent| record.extend([1, 1, parent]));
    let own = Foreign::own(&record, 0);
    assert_eq!(own.judged(&record), yes(5));
    // Each is 2^58 more, so that the sum is 2^64 more.
    let large: Vec<(usize, u64)> = (0..64)
        .map(|segment| 5 + 3 * segment)
        .map(|at| (at, own.words[at] + (1 << 58)))
        .collect();
    assert_eq!(own.with(&large).judged(&record), broken(3));
}

#[test]
fn rule_4_the_deadlines() {
    for record in [LISTING, FOUR, CHAIN, JOINED] {
        let own = Foreign::own(record, 0);
        let nodes = 3 + 3 * own.words[1] as usize;
        for at in (nodes + 1..own.words.len()).step_by(3) {
            for word in [own.words[at].wrapping_sub(1), own.words[at] + 1, LARGEST] {
                let word = word.min(LARGEST);
                assert_eq!(own.with(&[(at, word)]).judged(record), broken(4));
            }
        }
    }
}

#[test]
fn rule_5_the_offsets() {
    for record in [LISTING, FOUR, CHAIN, JOINED] {
        let own = Foreign::own(record, 0);
        let nodes = 3 + 3 * own.words[1] as usize;
        for at in (nodes..own.words.len()).step_by(3) {
            for word in [own.words[at].wrapping_sub(1), own.words[at] + 1, LARGEST] {
                let word = word.min(LARGEST);
                assert_eq!(own.with(&[(at, word)]).judged(record), broken(5));
            }
        }
    }
    // The start in the timing diagram is no offset.
    let own = Foreign::own(LISTING, 0);
    assert_eq!(own.with(&[(18, 5)]).judged(LISTING), broken(5));
    // 2^63 - 1 and as much again is no end that an offset could have.
    let own = Foreign::own(CHAIN, 0);
    let far = own.with(&[(12, LARGEST), (15, LARGEST)]);
    assert_eq!(far.judged(CHAIN), broken(5));
}

#[test]
fn rule_6_half_the_execution() {
    // Node 0 runs 2, so it needs 6 over 6, which it has; 7 asks for less.
    let four = |first: u64, densities: [u64; 2]| Foreign {
        id: 9,
        words: [
            &[
                6,
                2,
                4,
                1,
                2,
                first,
                3,
                1,
                24 - first,
                0,
                first,
                densities[0],
            ][..],
            &[first, 24 - first, densities[1]].repeat(3),
        ]
        .concat(),
    };
    assert_eq!(four(6, [2_000_000, 333_334]).judged(FOUR), yes(9));
    assert_eq!(four(5, [2_400_000, 315_790]).judged(FOUR), broken(6));
    assert_eq!(four(7, [1_714_286, 352_942]).judged(FOUR), yes(9));
}

#[test]
fn rule_8_the_densities() {
    for record in [LISTING, FOUR, CHAIN, JOINED] {
        let own = Foreign::own(record, 0);
        let nodes = 3 + 3 * own.words[1] as usize;
        for at in (nodes + 2..own.words.len()).step_by(3) {
            for word in [own.words[at].wrapping_sub(1), own.words[at] + 1, LARGEST] {
                let word = word.min(LARGEST);
                assert_eq!(own.with(&[(at, word)]).judged(record), broken(8));
            }
        }
    }
}

#[test]
fn the_first_broken_rule_is_told() {
    let own = Foreign::own(LISTING, 0);
    // One change for each of the rules but 6 and 7, which come of numerators.
    let changes: [(usize, u64); 6] = [(0, 0), (3, 1), (11, 7), (19, 13), (18, 5), (20, 1)];
    let rules = [1, 2, 3, 4, 5, 8];
    for first in 0..6 {
        let all = own.with(&changes[first..]);
        assert_eq!(all.judged(LISTING), broken(rules[first]));
    }
    // 6 before 7 before 8.
    let both = Foreign::listing(5, [2, 22, 6]);
    assert_eq!(both.with(&[(14, 1)]).judged(LISTING), broken(6));
    let dense = Foreign::listing(5, [5, 19, 6]);
    assert_eq!(dense.with(&[(14, 1)]).judged(LISTING), broken(7));
}

#[test]
fn plans_of_other_tasks() {
    let own = Foreign::own(LISTING, 0);
    for id in [0, 2, 4, 3 + (1 << 32), LARGEST] {
        let other = Foreign { id, ..own.clone() };
        assert_eq!(other.judged(LISTING), refused(24, 0));
    }
    // Before the rules: a node more or less, and every rule broken.
    let mut fewer = own.clone();
    fewer.words.truncate(18);
    fewer.words[2] = 2;
    let mut more = own.clone();
    more.words.extend([0; 3]);
    more.words[2] = 4;
    for mut other in [fewer, more] {
        assert_eq!(other.judged(LISTING), refused(24, 0));
        other.words[0] = 0;
        assert_eq!(other.judged(LISTING), refused(24, 0));
    }
    for one in [LISTING, FOUR, CHAIN, JOINED] {
        for other in [LISTING, FOUR, CHAIN, JOINED] {
            let answer = Foreign::own(one, 0).judged(other);
            assert_eq!(answer.refusal == 0, one == other);
        }
    }
}

/// A task record for each of its refusals.
const REFUSED: [(&[u8], u64, u64, u64); 14] = [
    (&[], 1, 0, 0),
    (&[0x80, 0x80, 0x80, 0x80], 2, 0, 0),
    (&[3], 3, 0, 0),
    (&[1, 0], 4, 1, 0),
    (&[1, 7, 0], 5, 2, 0),
    (&[1, 7, 9, 65], 6, 3, 0),
    (&[1, 7, 9, 1, 0], 7, 4, 0),
    (&[1, 7, 9, 1, 5, 2], 8, 5, 0),
    (&[1, 7, 9, 1, 5, 0, 0], 9, 6, 0),
    (&[0x81, 0], 18, 0, 0),
    (&[2, 7, 9, 1, 0, 0], 21, 0, 0),
    (&[1, 7, 9, 2, 5, 0, 5, 1, 1], 10, 1, 2),
    (&[1, 7, 9, 2, 1, 1, 1, 1, 1, 0], 10, 0, 3),
    (&[1, 7, 4, 1, 5, 0], 11, 0, 0),
];

#[test]
fn the_order_of_refusals() {
    let own = Foreign::own(LISTING, 0).record();
    let plans: [(Vec<u8>, Answer); 8] = [
        (vec![], refused(1, 0)),
        (vec![0xFF; 9], refused(2, 0)),
        (vec![0x83, 0], refused(18, 0)),
        (vec![3, 5, 0], refused(24, 2)),
        ([&own[..], &[0]].concat(), refused(9, 28)),
        ([&[4], &own[1..]].concat(), refused(24, 0)),
        ([&[3, 0], &own[2..]].concat(), broken(1)),
        (own, yes(3)),
    ];
    for (plan, of_plan) in plans {
        for lent in [0, 386, 387, 400] {
            let mut words = vec![OLD; lent];
            for cost in [256, u64::MAX] {
                for (record, ..) in REFUSED.into_iter().chain([(LISTING, 0, 0, 0)]) {
                    assert_eq!(judge(record, &plan, &mut words, cost), refused(26, 0));
                }
            }
            for (record, refusal, place, ring) in REFUSED {
                let expected = Answer {
                    refusal,
                    place,
                    value: 0,
                    ring,
                };
                assert_eq!(judge(record, &plan, &mut words, 0), expected);
            }
            assert!(words.iter().all(|&word| word == OLD));
            let expected = if lent < 387 { refused(16, 0) } else { of_plan };
            assert_eq!(judge(LISTING, &plan, &mut words, 0), expected);
        }
    }
}

#[test]
fn the_cost_is_in_every_rule() {
    // One step of 5 in a period of 20: at cost 15 it runs as long as that.
    let record = [1, 7, 20, 1, 5, 0];
    let step = |runs: u64, over: u64| Foreign {
        id: 7,
        words: vec![over, 1, 1, 1, runs, 20 * over, 0, 20 * over, 50_000 * runs],
    };
    for cost in 0..=15 {
        for over in [1, 5, 8] {
            let foreign = step(5 + cost, over);
            assert_eq!(foreign.judged_at(&record, cost), yes(7));
            assert_eq!(foreign.judged_at(&record, (cost + 1) % 16), broken(2));
            let rounded = foreign.with(&[(8, 50_000 * 5 + 1)]);
            assert_eq!(rounded.judged_at(&record, cost), broken(8));
        }
    }
    assert_eq!(step(21, 1).judged_at(&record, 16), refused(11, 0));
    // A join pays nothing: its deadline and density stay 0.
    for cost in 0..=2 {
        let own = Foreign::own(JOINED, cost);
        assert_eq!(own.judged_at(JOINED, cost), yes(9));
        let join = own.words.len() - 6;
        assert_eq!(own.words[join + 1..join + 3], [0, 0]);
        let heavy = own.with(&[(join + 2, 1)]);
        assert_eq!(heavy.judged_at(JOINED, cost), broken(8));
    }
}

/// Each after its length, which is below 128.
fn pair(record: &[u8], plan: &[u8]) -> Vec<u8> {
    let part = |bytes: &[u8]| [&[bytes.len() as u8], bytes].concat();
    [part(record), part(plan)].concat()
}

fn line(refusal: u64, place: usize) -> Vec<u8> {
    format!("refused {refusal} at {place}\n").into_bytes()
}

#[test]
fn the_sheet_of_our_own_plan() {
    for record in [LISTING, FOUR, CHAIN, JOINED] {
        let own = Foreign::own(record, 0).record();
        assert_eq!(check_sheet(&pair(record, &own)), sheet(record));
    }
}

#[test]
fn the_shape_of_the_input() {
    let own = Foreign::own(LISTING, 0).record();
    let whole = pair(LISTING, &own);
    assert_eq!(whole.len(), 41);
    // Where the record's end, the plan's length and its end are.
    for length in 0..whole.len() {
        assert_eq!(check_sheet(&whole[..length]), line(1, length));
    }
    assert_eq!(check_sheet(&whole), sheet(LISTING));
    for more in [&[0][..], &[0x80], &[0; 9_000]] {
        assert_eq!(check_sheet(&[&whole, more].concat()), line(9, 41));
    }
    let forms: [(&[u8], u64); 6] = [
        (&[0x80, 0], 18),
        (&[0x9C, 0x80, 0], 18),
        (&[0x80, 0x80, 0x80, 0x80], 2),
        (&[0x80, 0x80, 0x80, 0x80, 0x80, 0], 2),
        (&[0x80, 0x80, 0x80], 1),
        (&[0x80], 1),
    ];
    for (form, number) in forms {
        assert_eq!(check_sheet(form), line(number, 0));
        let second = [&whole[..12], form].concat();
        assert_eq!(check_sheet(&second), line(number, 12));
        if number != 1 {
            let more = [&second, &whole[..]].concat();
            assert_eq!(check_sheet(&more), line(number, 12));
        }
    }
}

#[test]
fn the_shape_comes_before_the_judge() {
    let own = Foreign::own(LISTING, 0).record();
    // The task's edition is 3, and something is wrong with the shape as well.
    let bad = pair(&[3, 3, 6], &own);
    assert_eq!(check_sheet(&bad), line(3, 0));
    assert_eq!(check_sheet(&bad[..bad.len() - 1]), line(1, bad.len() - 1));
    let followed = [&bad[..], &[7]].concat();
    assert_eq!(check_sheet(&followed), line(9, bad.len()));
    // Places count from each record's first byte.
    assert_eq!(check_sheet(&pair(&LISTING[..4], &own)), line(1, 4));
    assert_eq!(check_sheet(&pair(LISTING, &own[..20])), line(1, 20));
    assert_eq!(check_sheet(&pair(LISTING, &[])), line(1, 0));
    assert_eq!(check_sheet(&pair(&[], &[])), line(1, 0));
    assert_eq!(check_sheet(&[0, 0]), line(1, 0));
    let loop_of_two = [1, 7, 9, 2, 1, 1, 1, 1, 1, 0];
    assert_eq!(check_sheet(&pair(&loop_of_two, &own)), line(10, 0));
}

#[test]
fn no_more_is_read_than_its_front() {
    // A record of 9,000 bytes.
    let long = [&[0xA8, 0x46][..], &[1; 9_000], &[0]].concat();
    assert_eq!(check_sheet(&long), line(1, 8_192));
    // The plan's length would be the first byte that isn't read.
    let long = [&[0xFE, 0x3F][..], &[1; 8_190], &[0]].concat();
    assert_eq!(check_sheet(&long), line(1, 8_192));
}

/// An example's input, and the sheet that is stored beside it.
macro_rules! example {
    ($name:literal) => {
        (
            &include_bytes!(concat!("../../../examples/", $name, ".pair"))[..],
            &include_bytes!(concat!("../../../examples/", $name, ".sheet"))[..],
        )
    };
}

#[test]
fn the_sheets_of_the_examples() {
    for (input, sheet) in [
        example!("ownplan"),
        example!("moved"),
        example!("rule1"),
        example!("rule2"),
        example!("rule3"),
        example!("rule4"),
        example!("rule5"),
        example!("rule6"),
        example!("rule7"),
        example!("rule8"),
    ] {
        assert_eq!(check_sheet(input), sheet);
    }
}
