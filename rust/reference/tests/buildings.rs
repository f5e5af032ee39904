//! A building's file: what is counted in it, and every refusal that ends the
//! walk at its place.

use reference::{building, building_sheet, plan, Answer, Counts, PLAN_WORDS};

/// Document 01's tables. One step that is light and one that is heavy, a chain of
/// three, a segment of each kind, and the listing.
const LIGHT: &[u8] = &[1, 7, 5, 1, 5, 0];
const HEAVY: &[u8] = &[1, 7, 10, 1, 5, 0];
const CHAIN: &[u8] = &[1, 7, 3, 3, 1, 0, 1, 1, 0, 1, 1, 1];
const FOUR: &[u8] = &[1, 9, 4, 4, 2, 0, 1, 1, 0, 1, 1, 0, 1, 1, 0];
const LISTING: &[u8] = &[1, 3, 6, 3, 3, 0, 1, 0, 1, 1, 1];

/// A join, and a step that waits for it.
const JOINED: &[u8] = &[2, 7, 90, 2, 0, 0, 3, 1, 0];

/// Each with the number that it is refused by.
const REFUSED: [(u64, &[u8]); 15] = [
    (1, &[]),
    (1, &[1, 7, 9, 1, 5]),
    (2, &[0x80, 0x80, 0x80, 0x80, 0]),
    (3, &[3, 7, 9, 1, 5, 0]),
    (4, &[1, 0]),
    (5, &[1, 7, 0]),
    (6, &[1, 7, 9, 65]),
    (7, &[1, 7, 9, 1, 0, 0]),
    (8, &[1, 7, 9, 1, 5, 2]),
    (9, &[1, 7, 9, 1, 5, 0, 0]),
    (10, &[1, 7, 9, 1, 5, 1, 0]),
    (11, &[1, 7, 4, 1, 5, 0]),
    (18, &[0x81, 0]),
    (21, &[2, 7, 9, 1, 0, 0]),
    (21, &[2, 7, 9, 2, 0, 1, 0, 0, 0]),
];

const LARGEST: usize = 1_048_576;

fn number(mut value: usize) -> Vec<u8> {
    let mut bytes = Vec::new();
    while value >= 128 {
        bytes.push(value as u8 | 0x80);
        value >>= 7;
    }
    bytes.push(value as u8);
    bytes
}

fn file(records: &[&[u8]]) -> Vec<u8> {
    let part = |record: &&[u8]| [&number(record.len())[..], record].concat();
    records.iter().flat_map(part).collect()
}

/// With the file walked to its end.
fn walked(records: u64, accepted: u64, counts: Counts) -> Counts {
    Counts {
        answer: Answer {
            value: records,
            ..Answer::default()
        },
        records,
        accepted,
        ..counts
    }
}

/// The same counts, with a refusal beside them.
fn ended(refusal: u64, place: usize, counts: Counts) -> Counts {
    Counts {
        answer: Answer {
            refusal,
            place: place as u64,
            ..Answer::default()
        },
        ..counts
    }
}

fn refused(refusal: u64) -> Counts {
    ended(refusal, 0, Counts::default())
}

/// Nodes, segments, work, heavy, light and dense of one record, which is accepted.
fn one(record: &[u8], cost: u64) -> [u64; 6] {
    let counts = building(&file(&[record]), cost);
    let expected = Counts {
        refused: [0; 29],
        ..counts
    };
    assert_eq!(counts, walked(1, 1, expected));
    let kinds = [counts.heavy, counts.light, counts.dense];
    let sizes = [counts.nodes, counts.segments, counts.work];
    [sizes, kinds].concat().try_into().unwrap()
}

#[test]
fn as_the_header_has_it() {
    assert_eq!(size_of::<Counts>(), 8 * (4 + 2 + 29 + 6));
}

#[test]
fn an_empty_file() {
    for cost in [0, 1, 255] {
        assert_eq!(building(&[], cost), Counts::default());
    }
}

#[test]
fn one_record() {
    let records: [(&[u8], [u64; 6]); 6] = [
        (LIGHT, [1, 1, 5, 0, 1, 0]),
        (HEAVY, [1, 1, 5, 1, 0, 0]),
        (CHAIN, [3, 3, 3, 0, 3, 0]),
        (FOUR, [4, 2, 5, 1, 1, 1]),
        (LISTING, [3, 3, 5, 3, 0, 0]),
        (JOINED, [2, 1, 3, 1, 0, 0]),
    ];
    for (record, counted) in records {
        assert_eq!(one(record, 0), counted);
    }
}

#[test]
fn the_cost_is_in_the_work() {
    // It runs 9 in a period of 10: 20 - 9 is above 9, and 20 - 10 not above 10.
    assert_eq!(one(HEAVY, 4), [1, 1, 9, 1, 0, 0]);
    assert_eq!(one(HEAVY, 5), [1, 1, 10, 0, 1, 0]);
    let mut too_long = Counts::default();
    too_long.refused[11] = 1;
    assert_eq!(building(&file(&[HEAVY]), 6), walked(1, 0, too_long));
    // Nodes 0 and 2 end together.
    assert_eq!(one(LISTING, 1), [3, 2, 8, 2, 0, 0]);
    // A join pays nothing.
    assert_eq!(one(JOINED, 10), [2, 1, 13, 1, 0, 0]);
}

/// The largest of a record's densities.
fn largest(record: &[u8]) -> u64 {
    let mut words = [0; PLAN_WORDS];
    let answer = plan(record, &mut words, 0);
    let nodes = 3 + 3 * words[1] as usize..answer.value as usize;
    let densities = words[nodes].chunks(3).map(|node| node[2]);
    densities.max().unwrap()
}

#[test]
fn a_density_of_one_is_not_above_it() {
    // The step runs as long as the period: light, and five over five.
    assert_eq!((largest(LIGHT), one(LIGHT, 0)[5]), (1_000_000, 0));
    assert_eq!((largest(CHAIN), one(CHAIN, 0)[5]), (1_000_000, 0));
    assert_eq!((largest(FOUR), one(FOUR, 0)[5]), (2_000_000, 1));
    // In a period of 5 all is heavy, and no density is above work over period.
    let mut five = FOUR.to_vec();
    five[2] = 5;
    assert_eq!((largest(&five), one(&five, 0)[5]), (1_000_000, 0));
    // The root has that one, of a work of 1,000,001: above one by as little as
    // counts, one, and below it by less than counts.
    let densities = [
        (1_000_000, 1_000_001, 1),
        (1_000_001, 1_000_000, 0),
        (1_000_002, 1_000_000, 0),
    ];
    for (period, density, dense) in densities {
        let root = [1, 7, period, 17, 40_001, 0];
        let numbers = [&root[..], &[60_000, 1, 0].repeat(16)].concat();
        let record = numbers.into_iter().flat_map(number).collect::<Vec<_>>();
        assert_eq!((largest(&record), one(&record, 0)[5]), (density, dense));
    }
}

#[test]
fn a_task_is_dense_once() {
    // Two light segments, each with a step at twice one, and then a heavy one.
    let mut record = vec![1, 7, 6, 8, 2, 0, 2, 1, 0];
    record.extend([1, 1, 1].repeat(6));
    let mut words = [0; PLAN_WORDS];
    plan(&record, &mut words, 0);
    let nodes = 3 + 3 * words[1] as usize;
    assert_eq!(words[1], 3);
    assert_eq!([words[nodes + 2], words[nodes + 5]], [2_000_000; 2]);
    assert_eq!(one(&record, 0), [8, 3, 10, 1, 2, 1]);
}

#[test]
fn the_worked_tables_in_one_file() {
    let records = [LIGHT, HEAVY, CHAIN, FOUR, LISTING, JOINED];
    let counts = Counts {
        nodes: 14,
        segments: 11,
        work: 26,
        heavy: 6,
        light: 5,
        dense: 1,
        ..Counts::default()
    };
    assert_eq!(building(&file(&records), 0), walked(6, 6, counts));
    let mut turned = records;
    turned.reverse();
    assert_eq!(building(&file(&turned), 0), walked(6, 6, counts));
}

#[test]
fn each_record_is_planned_alone() {
    // The same id many times, and more records than a board has rows.
    let counts = Counts {
        nodes: 300,
        segments: 300,
        work: 1_500,
        heavy: 300,
        ..Counts::default()
    };
    let same = file(&[HEAVY; 300]);
    assert_eq!(building(&same, 0), walked(300, 300, counts));
}

#[test]
fn refused_by_number() {
    for (number, record) in REFUSED {
        let mut counts = Counts::default();
        counts.refused[number as usize] = 1;
        assert_eq!(building(&file(&[record]), 0), walked(1, 0, counts));
        // What is accepted beside it is counted all the same.
        let mut counts = building(&file(&[FOUR, HEAVY]), 0);
        counts.refused[number as usize] = 2;
        let beside = file(&[record, FOUR, record, HEAVY]);
        assert_eq!(building(&beside, 0), walked(4, 2, counts));
    }
    let mut counts = Counts::default();
    for (number, _) in REFUSED {
        counts.refused[number as usize] += 1;
    }
    let all = file(&REFUSED.map(|(_, record)| record));
    assert_eq!(building(&all, 0), walked(15, 0, counts));
}

#[test]
fn a_length_of_none() {
    let mut counts = Counts::default();
    counts.refused[1] = 3;
    assert_eq!(building(&[0; 3], 0), walked(3, 0, counts));
    let counts = building(&[[0].to_vec(), file(&[HEAVY]), [0].to_vec()].concat(), 0);
    assert_eq!((counts.records, counts.accepted), (3, 1));
    assert_eq!(counts.refused[1], 2);
}

#[test]
fn lengths_of_every_size() {
    // A record that begins with 0 is refused by 3, however long it is.
    for length in [1, 127, 128, 129, 16_383, 16_384, 16_385, LARGEST - 3] {
        let mut counts = Counts::default();
        counts.refused[3] = 1;
        let mut bytes = file(&[&vec![0; length]]);
        assert_eq!(building(&bytes, 0), walked(1, 0, counts));
        bytes.pop();
        let cut = ended(1, bytes.len(), Counts::default());
        assert_eq!(building(&bytes, 0), cut);
    }
}

#[test]
fn damaged_lengths() {
    let forms: [(u64, &[u8]); 12] = [
        (2, &[0x80, 0x80, 0x80, 0x80]),
        (2, &[0x80, 0x80, 0x80, 0x80, 0]),
        (2, &[0x86, 0x80, 0x80, 0x80, 0x80, 0]),
        (2, &[0xFF, 0xFF, 0xFF, 0xFF]),
        (18, &[0x80, 0]),
        (18, &[0x86, 0]),
        (18, &[0x80, 0x80, 0]),
        (18, &[0x86, 0x80, 0x80, 0]),
        (18, &[0xFF, 0xFF, 0xFF, 0]),
        (1, &[0x80]),
        (1, &[0x86, 0x80]),
        (1, &[0x80, 0x80, 0x80]),
    ];
    for records in [&[][..], &[HEAVY], &[FOUR, &[], LIGHT]] {
        let before = file(records);
        let counts = building(&before, 0);
        for (number, form) in forms {
            let expected = ended(number, before.len(), counts);
            let end = [&before, form].concat();
            assert_eq!(building(&end, 0), expected, "{form:X?}");
            // Only a whole length is damaged by its form.
            if number != 1 {
                let more = [&end[..], HEAVY, &file(&[HEAVY])].concat();
                assert_eq!(building(&more, 0), expected, "{form:X?}");
            }
        }
    }
}

#[test]
fn a_record_past_the_end() {
    for records in [&[][..], &[HEAVY], &[FOUR, &[], LIGHT]] {
        let before = file(records);
        let counts = building(&before, 0);
        // The form is a good one, also of the largest number.
        for form in [&[7][..], &[0x80, 1], &[0xFF, 0xFF, 0xFF, 0x7F]] {
            let past = [&before, form, HEAVY].concat();
            assert_eq!(building(&past, 0), ended(1, past.len(), counts));
            let past = [&before, form].concat();
            assert_eq!(building(&past, 0), ended(1, past.len(), counts));
        }
    }
}

#[test]
fn cut_at_every_byte() {
    let long = [FOUR, &[0; 200]].concat();
    let records: [&[u8]; 5] = [LISTING, &[], &long, CHAIN, LIGHT];
    let whole = file(&records);
    for cut in 0..=whole.len() {
        let prefix = |many: usize| file(&records[..many]).len();
        let before = (0..=5).rfind(|&many| prefix(many) <= cut).unwrap();
        let counts = building(&file(&records[..before]), 0);
        let expected = match (prefix(before) == cut, before) {
            (true, _) => counts,
            // After the first of the length's two bytes.
            (_, 2) if cut == prefix(2) + 1 => ended(1, prefix(2), counts),
            _ => ended(1, cut, counts),
        };
        assert_eq!(building(&whole[..cut], 0), expected, "cut at {cut}");
    }
}

#[test]
fn costs_that_are_too_high() {
    let long = vec![0; LARGEST + 1];
    let damaged = [&file(&[HEAVY])[..], &[0x80, 0]].concat();
    for bytes in [&[][..], &file(&[HEAVY]), &damaged, &long] {
        for cost in [256, 257, 1 << 32, u64::MAX] {
            assert_eq!(building(bytes, cost), refused(26));
        }
    }
}

#[test]
fn the_largest_file() {
    let mut counts = Counts::default();
    counts.refused[1] = LARGEST as u64;
    let mut bytes = vec![0; LARGEST];
    let expected = walked(LARGEST as u64, 0, counts);
    assert_eq!(building(&bytes, 255), expected);
    // A damaged length at its end.
    bytes[LARGEST - 1] = 0x80;
    counts.refused[1] -= 1;
    counts.records = LARGEST as u64 - 1;
    let expected = ended(1, LARGEST - 1, counts);
    assert_eq!(building(&bytes, 255), expected);
    // A byte more, and nothing is counted or looked at.
    for last in [0, 0x80] {
        bytes[LARGEST - 1] = last;
        let longer = [&bytes[..], &[0]].concat();
        assert_eq!(building(&longer, 255), refused(27));
    }
}

/// An example's file, and the sheet that is stored beside it.
macro_rules! example {
    ($name:literal) => {
        (
            &include_bytes!(concat!("../../../examples/", $name, ".building"))[..],
            &include_bytes!(concat!("../../../examples/", $name, ".sheet"))[..],
        )
    };
}

#[test]
fn the_sheets_of_the_examples() {
    for (file, sheet) in [example!("tower"), example!("padded"), example!("empty")] {
        assert_eq!(building_sheet(file), sheet);
    }
}

#[test]
fn the_sheet_of_a_longer_file_is_that_of_its_front() {
    let (tower, _) = example!("tower");
    let towers = tower.repeat(100);
    let sheet = building_sheet(&towers);
    assert_eq!(sheet, building_sheet(&towers[..65_536]));
    assert!(sheet.ends_with(b"dense 296\nended 1 at 65536\n"));
}
