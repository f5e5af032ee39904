//! Mending a record: what is written, the three counts, and every refusal at
//! its place.

use reference::{mend, plan, read, write_record, Answer, Mending, PLAN_WORDS};

const OLD: u8 = 0xA5;

/// The longest that is written.
const LONGEST: usize = 4_361;

/// Document 01's listing: three nodes, node 2 waits for node 1.
const LISTING: [u64; 11] = [1, 3, 6, 3, 3, 0, 1, 0, 1, 1, 1];

/// The mending and the bytes written; the others have to keep their content.
fn mend_into(given: &[u8], lent: usize) -> (Mending, Vec<u8>) {
    let mut bytes = vec![OLD; lent];
    let mending = mend(given, &mut bytes);
    let rest = bytes.split_off(mending.answer.value as usize);
    assert!(rest.iter().all(|&byte| byte == OLD));
    (mending, bytes)
}

/// What is written, with padded, reordered and dropped.
fn mended(given: &[u8]) -> (Vec<u8>, [u64; 3]) {
    let (mending, bytes) = mend_into(given, LONGEST + 5);
    let value = bytes.len() as u64;
    assert_eq!(
        mending.answer,
        Answer {
            value,
            ..Answer::default()
        }
    );
    (bytes, [mending.padded, mending.reordered, mending.dropped])
}

/// The same whether there is room or not.
fn refusal(given: &[u8]) -> Mending {
    let (mending, _) = mend_into(given, LONGEST);
    assert_ne!(mending.answer.refusal, 0);
    assert_eq!(mend_into(given, 0).0, mending);
    mending
}

fn refused(refusal: u64, place: usize) -> Mending {
    Mending {
        answer: Answer {
            refusal,
            place: place as u64,
            ..Answer::default()
        },
        ..Mending::default()
    }
}

/// A number in so many bytes, or as many as it takes.
fn form(number: u64, bytes: usize) -> Vec<u8> {
    let taken = (64 - number.leading_zeros()).div_ceil(7).max(1) as usize;
    let last = bytes.max(taken) - 1;
    let group = |at: usize| (number >> (7 * at) & 0x7F) as u8;
    let mut form: Vec<u8> = (0..last).map(|at| group(at) | 0x80).collect();
    form.push(group(last));
    form
}

/// Numbers one after the other, each in its shortest form.
fn encoded(numbers: &[u64]) -> Vec<u8> {
    stretched(numbers, 1)
}

/// Each in so many bytes, or as many as it takes.
fn stretched(numbers: &[u64], bytes: usize) -> Vec<u8> {
    let forms = numbers.iter().map(|&number| form(number, bytes));
    forms.collect::<Vec<_>>().concat()
}

/// The numbers' bytes, but for one of them.
fn with_form(numbers: &[u64], at: usize, form: &[u8]) -> Vec<u8> {
    [
        &encoded(&numbers[..at])[..],
        form,
        &encoded(&numbers[at + 1..]),
    ]
    .concat()
}

/// Where that number stands.
fn place(numbers: &[u64], at: usize) -> usize {
    encoded(&numbers[..at]).len()
}

/// Four nodes, of which node 2 has that list; the others have none.
fn with_list(list: &[u64]) -> Vec<u64> {
    let node = [5, list.len() as u64];
    [&[1, 7, 90, 4, 5, 0, 5, 0], &node[..], list, &[5, 0]].concat()
}

#[test]
fn what_is_read_comes_back() {
    let worked: [&[u8]; 8] = [
        &[1, 7, 5, 1, 5, 0],
        &[1, 7, 3, 3, 1, 0, 1, 1, 0, 1, 1, 1],
        &[1, 9, 4, 4, 2, 0, 1, 1, 0, 1, 1, 0, 1, 1, 0],
        &[1, 7, 5, 1, 5, 1, 0],
        &[1, 7, 9, 2, 1, 1, 1, 1, 1, 0],
        &[1, 7, 0xFF, 0xFF, 0xFF, 0x07, 1, 5, 0],
        &[2, 7, 9, 2, 0, 0, 3, 1, 0],
        &[2, 9, 10, 4, 2, 0, 4, 0, 0, 2, 0, 1, 1, 1, 2],
    ];
    for record in worked {
        assert_eq!(mended(record), (record.to_vec(), [0; 3]));
    }
}

#[test]
fn a_sloppy_record() {
    let given = [
        1, 0xAC, 0x82, 0, 0x98, 0x80, 0x80, 0, 4, 2, 0, 4, 2, 0, 0, 3, 0x81, 0, 0, 1, 3, 2, 0x81,
        0, 2,
    ];
    let record = [1, 0xAC, 0x02, 24, 4, 2, 0, 4, 1, 0, 3, 1, 0, 1, 2, 1, 2];
    assert_eq!(mended(&given), (record.to_vec(), [4, 1, 2]));
}

#[test]
fn each_number_padded() {
    let record = encoded(&LISTING);
    for (at, &number) in LISTING.iter().enumerate() {
        for bytes in 2..=4 {
            let given = with_form(&LISTING, at, &form(number, bytes));
            assert_eq!(mended(&given), (record.clone(), [1, 0, 0]));
        }
    }
    for bytes in 2..=4 {
        let given = stretched(&LISTING, bytes);
        assert_eq!(mended(&given), (record.clone(), [11, 0, 0]));
    }
}

#[test]
fn forms_that_are_the_shortest() {
    // A group of zeros, but not the last.
    for id in [[0x80, 0x80, 1], [0x83, 0x80, 1]] {
        let given = with_form(&LISTING, 1, &id);
        assert_eq!(mended(&given), (given, [0; 3]));
    }
    let period = [0x86, 0x80, 0x80, 1];
    let given = with_form(&LISTING, 2, &period);
    assert_eq!(mended(&given), (given, [0; 3]));
}

#[test]
fn lists_in_any_order() {
    let lists: [(&[u64], &[u64], [u64; 2]); 13] = [
        (&[], &[], [0, 0]),
        (&[3], &[3], [0, 0]),
        (&[0, 1, 2, 3], &[0, 1, 2, 3], [0, 0]),
        (&[2, 1], &[1, 2], [1, 0]),
        (&[0, 1, 3, 2], &[0, 1, 2, 3], [1, 0]),
        (&[3, 2, 1, 0], &[0, 1, 2, 3], [1, 0]),
        (&[3, 3, 3], &[3], [0, 2]),
        (&[1, 2, 1], &[1, 2], [0, 1]),
        (&[1, 2, 1, 2, 1], &[1, 2], [0, 3]),
        (&[2, 1, 2, 1], &[1, 2], [1, 2]),
        (&[1, 3, 1, 2], &[1, 2, 3], [1, 1]),
        (&[3, 3, 1], &[1, 3], [1, 1]),
        (&[0, 1, 2, 3, 0], &[0, 1, 2, 3], [0, 1]),
    ];
    for (list, parents, [reordered, dropped]) in lists {
        let given = encoded(&with_list(list));
        let record = encoded(&with_list(parents));
        assert_eq!(mended(&given), (record, [0, reordered, dropped]));
    }
}

/// Every list of up to five of three nodes, counted in the request's words.
#[test]
fn every_short_list() {
    let mut lists: Vec<Vec<u64>> = vec![vec![]];
    for at in 0.. {
        let Some(list) = lists.get(at).cloned() else {
            break;
        };
        if list.len() < 5 {
            lists.extend((0..3).map(|parent| [&list[..], &[parent]].concat()));
        }
        let mut once: Vec<u64> = Vec::new();
        for parent in &list {
            if !once.contains(parent) {
                once.push(*parent);
            }
        }
        let dropped = (list.len() - once.len()) as u64;
        let reordered = u64::from(!once.is_sorted());
        once.sort();
        let record = encoded(&with_list(&once));
        let given = encoded(&with_list(&list));
        assert_eq!(mended(&given), (record, [0, reordered, dropped]));
    }
    assert_eq!(lists.len(), 1 + 3 + 9 + 27 + 81 + 243);
}

#[test]
fn lists_count_once_each() {
    let given = [1, 7, 9, 3, 1, 3, 2, 1, 0, 1, 2, 0, 1, 1, 4, 2, 2, 0, 0];
    let record = [1, 7, 9, 3, 1, 3, 0, 1, 2, 1, 2, 0, 1, 1, 2, 0, 2];
    assert_eq!(mended(&given), (record.to_vec(), [0, 2, 2]));
}

#[test]
fn a_padded_repeat_counts_twice() {
    let given = [1, 7, 9, 2, 1, 2, 1, 0x81, 0, 1, 0];
    let record = [1, 7, 9, 2, 1, 1, 1, 1, 0];
    assert_eq!(mended(&given), (record.to_vec(), [1, 0, 1]));
}

#[test]
fn as_many_parents_as_255() {
    for count in [2, 127, 128, 254, 255] {
        let numbers = [&[1, 7, 9, 1, 5, count][..], &vec![0; count as usize]].concat();
        let record = vec![1, 7, 9, 1, 5, 1, 0];
        assert_eq!(mended(&encoded(&numbers)), (record, [0, 0, count - 1]));
    }
    // Before any parent is read.
    for count in [256, 257, 16_384, (1 << 28) - 1] {
        let numbers = [&[1, 7, 9, 1, 5, count][..], &[0; 300]].concat();
        assert_eq!(refusal(&encoded(&numbers)), refused(8, 5));
        assert_eq!(refusal(&encoded(&numbers[..6])), refused(8, 5));
    }
    let padded = with_form(&[1, 7, 9, 1, 5, 0], 5, &form(256, 4));
    assert_eq!(refusal(&padded), refused(8, 5));
}

#[test]
fn an_input_that_ends() {
    for bytes in [1, 2, 4] {
        let given = stretched(&LISTING, bytes);
        for length in 0..given.len() {
            assert_eq!(refusal(&given[..length]), refused(1, length));
        }
    }
    // Nine parents are said to follow; a number has to be whole.
    assert_eq!(refusal(&encoded(&with_list(&[1; 9])[..15])), refused(1, 15));
    assert_eq!(refusal(&[0x80, 0x80, 0x80]), refused(1, 3));
}

#[test]
fn a_fourth_byte_with_its_top_bit() {
    let list = with_list(&[2, 2, 1]);
    for numbers in [&LISTING[..], &list] {
        for at in 0..numbers.len() {
            let place = place(numbers, at);
            for form in [&[0x80; 4][..], &[0xFF; 4], &[0x81, 0x80, 0x80, 0x80, 0]] {
                let given = with_form(numbers, at, form);
                assert_eq!(refusal(&given), refused(2, place));
                assert_eq!(refusal(&given[..place + 4]), refused(2, place));
            }
        }
    }
}

/// In their shortest form and padded, for a number is read whole first.
fn out_of_range(numbers: &[u64], at: usize, values: &[u64], rule: u64) {
    let place = place(numbers, at);
    for &value in values {
        for bytes in 1..=4 {
            let form = form(value, bytes);
            let given = with_form(numbers, at, &form);
            let end = place + form.len();
            assert_eq!(refusal(&given), refused(rule, place));
            assert_eq!(refusal(&given[..end]), refused(rule, place));
            assert_eq!(refusal(&given[..end - 1]), refused(1, end - 1));
        }
    }
}

#[test]
fn ranges() {
    let most = (1 << 28) - 1;
    out_of_range(&LISTING, 0, &[0, 3, 127, 128, most], 3);
    out_of_range(&LISTING, 1, &[0, 65_536, most], 4);
    out_of_range(&LISTING, 2, &[0, 16_777_216, most], 5);
    out_of_range(&LISTING, 3, &[0, 65, 127, 128, most], 6);
    for at in [4, 6, 8] {
        out_of_range(&LISTING, at, &[0, 65_536, most], 7);
    }
    for at in [5, 7, 9] {
        out_of_range(&LISTING, at, &[256, 300, most], 8);
    }
    out_of_range(&LISTING, 10, &[3, 4, 64, 128, most], 8);
}

#[test]
fn edition_2() {
    let mut numbers = LISTING;
    numbers[0] = 2;
    for at in [4, 6, 8] {
        out_of_range(&numbers, at, &[65_536], 7);
        let mut join = numbers;
        join[at] = 0;
        assert_eq!(mended(&stretched(&join, 3)), (encoded(&join), [11, 0, 0]));
    }
}

/// It is met where it stands, also in a list of more parents than nodes.
#[test]
fn a_parent_that_is_no_node() {
    let list = |list: &[u64]| refusal(&encoded(&with_list(list)));
    assert_eq!(list(&[4]), refused(8, 10));
    assert_eq!(list(&[2, 4]), refused(8, 11));
    assert_eq!(list(&[3, 3, 2, 1, 0, 4, 4]), refused(8, 15));
    assert_eq!(list(&[1, 64, 4]), refused(8, 11));
    let padded = stretched(&with_list(&[3, 4]), 2);
    assert_eq!(refusal(&padded), refused(8, 22));
}

#[test]
fn bytes_that_follow() {
    for bytes in 1..=4 {
        let given = stretched(&LISTING, bytes);
        for tail in [&[0][..], &[0x80], &[1, 2, 3], &[0xFF; 9]] {
            let followed = [&given[..], tail].concat();
            assert_eq!(refusal(&followed), refused(9, given.len()));
        }
    }
}

#[test]
fn the_order_of_21() {
    for count in [1, 2, 64] {
        let head = [&[2, 7, 9, count][..], &[0, 0].repeat(count as usize)].concat();
        let given = stretched(&head, 2);
        assert_eq!(refusal(&given), refused(21, 0));
        let followed = [&given[..], &[0]].concat();
        assert_eq!(refusal(&followed), refused(9, given.len()));
        let mut step = head.clone();
        step[2 + 2 * count as usize] = 1;
        assert_eq!(mended(&encoded(&step)).0, encoded(&step));
    }
    // In edition 1 an execution of 0 is met first.
    assert_eq!(refusal(&[1, 7, 9, 1, 0x80, 0, 0]), refused(7, 4));
}

#[test]
fn a_short_buffer_comes_last() {
    let given = stretched(&LISTING, 3);
    let record = encoded(&LISTING);
    for lent in 0..record.len() {
        assert_eq!(mend_into(&given, lent).0, refused(19, lent));
    }
    for lent in record.len()..record.len() + 4 {
        let (mending, bytes) = mend_into(&given, lent);
        assert_eq!((mending.padded, bytes), (11, record.clone()));
    }
}

#[test]
fn loops_and_long_paths_are_mended() {
    let itself = [1, 7, 9, 1, 5, 2, 0, 0];
    let (record, counts) = mended(&itself);
    assert_eq!(counts, [0, 0, 1]);
    assert_eq!(plan(&record, &mut [0; PLAN_WORDS], 0).refusal, 10);
    let (record, counts) = mended(&[1, 7, 0x84, 0, 1, 5, 0]);
    assert_eq!(counts, [1, 0, 0]);
    assert_eq!(plan(&record, &mut [0; PLAN_WORDS], 0).refusal, 11);
}

#[test]
fn the_longest_record() {
    let node = |list: Vec<u64>| [vec![65_535, list.len() as u64], list].concat();
    let of = |list: Vec<u64>| {
        let head = vec![1, 65_535, 16_777_215, 64];
        [head, node(list).repeat(64)].concat()
    };
    let numbers = of((0..255).map(|at| 63 - at % 64).collect());
    let given = stretched(&numbers, 4);
    assert_eq!(given.len(), 65_808);
    let record = encoded(&of((0..64).collect()));
    assert_eq!(record.len(), LONGEST);
    // All but the period are padded.
    let padded = numbers.len() as u64 - 1;
    let counts = [padded, 64, 64 * (255 - 64)];
    assert_eq!(mended(&given), (record.clone(), counts));
    assert_eq!(mend_into(&given, LONGEST).1, record);
    let short = LONGEST - 1;
    assert_eq!(mend_into(&given, short).0, refused(19, short));
    let followed = [&given[..], &[0]].concat();
    assert_eq!(refusal(&followed), refused(9, 65_808));
    assert_eq!(refusal(&given[..65_807]), refused(1, 65_807));
}

/// A small generator; the same numbers on every run.
struct Random(u64);

impl Random {
    fn number(&mut self) -> u64 {
        self.0 ^= self.0 << 13;
        self.0 ^= self.0 >> 7;
        self.0 ^= self.0 << 17;
        self.0
    }

    fn below(&mut self, limit: u64) -> u64 {
        (self.number() >> 16) % limit
    }

    fn up_to(&mut self, limit: u64) -> u64 {
        let bits = self.below(64 - u64::from(limit.leading_zeros()));
        self.below(2 << bits).min(limit)
    }

    /// In up to four bytes, and whether these are more than it takes.
    fn form(&mut self, number: u64) -> (Vec<u8>, bool) {
        let bytes = 1 + self.below(4) as usize;
        let form = form(number, bytes);
        let padded = form.len() > encoded(&[number]).len();
        (form, padded)
    }
}

/// A record as it is given, as it is to be, and what there is to mend.
struct Sloppy {
    given: Vec<u8>,
    record: Vec<u8>,
    counts: [u64; 3],
}

impl Sloppy {
    fn number(&mut self, random: &mut Random, number: u64) {
        let (form, padded) = random.form(number);
        self.given.extend(form);
        self.counts[0] += u64::from(padded);
    }

    /// A list that is made from the set: what is to be dropped is put in.
    fn parents(&mut self, random: &mut Random, set: u64) {
        let mut list: Vec<u64> = (0..64).filter(|node| set >> node & 1 == 1).collect();
        if list.len() > 1 && random.below(2) == 0 {
            let at = random.below(list.len() as u64 - 1) as usize;
            list.swap(at, at + 1);
            self.counts[1] += 1;
        }
        if !list.is_empty() {
            for _ in 0..random.up_to(255 - list.len() as u64) {
                let again = random.below(list.len() as u64) as usize;
                let after = again as u64 + random.below((list.len() - again) as u64);
                list.insert(after as usize + 1, list[again]);
                self.counts[2] += 1;
            }
        }
        self.number(random, list.len() as u64);
        for parent in list {
            self.number(random, parent);
        }
    }
}

fn sloppy(random: &mut Random) -> Sloppy {
    let count = 1 + random.up_to(63);
    let edition = 1 + random.below(2);
    let (id, period) = (1 + random.up_to(65_534), 1 + random.up_to(16_777_214));
    let nodes = u64::MAX >> (64 - count);
    let mut sloppy = Sloppy {
        given: vec![],
        record: vec![0; LONGEST],
        counts: [0; 3],
    };
    for number in [edition, id, period, count] {
        sloppy.number(random, number);
    }
    let (mut executions, mut parents) = (vec![], vec![]);
    for node in 0..count {
        let least = u64::from(edition == 1 || node == 0);
        let execution = random.up_to(65_535).max(least);
        let set = nodes & random.number() & random.number();
        sloppy.number(random, execution);
        sloppy.parents(random, set);
        executions.push(execution);
        parents.push(set);
    }
    let record = &mut sloppy.record;
    let answer = write_record(&executions, &parents, record, edition, id, period);
    record.truncate(answer.value as usize);
    sloppy
}

#[test]
fn as_the_writer_writes_it_and_twice_the_same() {
    let mut random = Random(0x2545_F491_4F6C_DD1D);
    for _ in 0..2_000 {
        let Sloppy {
            given,
            record,
            counts,
        } = sloppy(&mut random);
        assert_eq!(mended(&given), (record.clone(), counts));
        assert_eq!(mended(&record), (record.clone(), [0; 3]));
        let short = record.len() - 1;
        assert_eq!(mend_into(&given, short).0, refused(19, short));
    }
}

/// What the reader refuses is refused likewise, but for 8 and 18: these may be
/// mended, and another fault is met later or none.
#[test]
fn damaged_records() {
    let mut random = Random(0xD1B5_4A32_D192_ED03);
    let mut met = [0; 22];
    for round in 0..10_000 {
        let Sloppy {
            mut given, record, ..
        } = sloppy(&mut random);
        if round % 2 == 0 {
            given = record;
        }
        let at = random.below(given.len() as u64) as usize;
        match random.below(4) {
            0 => given.truncate(at),
            1 => given[at] = random.number() as u8,
            2 => given[at] ^= 1 << random.below(8),
            _ => given.insert(at, 0x80 | random.number() as u8),
        }
        let (mending, bytes) = mend_into(&given, LONGEST);
        met[mending.answer.refusal as usize] += 1;
        match read(&given) {
            Ok(_) => assert_eq!((mending.padded, bytes), (0, given)),
            Err(Answer {
                refusal: 8 | 18,
                place,
                ..
            }) => {
                let Answer { refusal: by, .. } = mending.answer;
                assert!(by == 0 || by == 21 || mending.answer.place >= place);
            }
            Err(answer) => assert_eq!(mending.answer, answer),
        }
    }
    for refusal in [1, 2, 3, 4, 5, 6, 7, 8, 9] {
        assert!(met[refusal] > 50, "{refusal}: only {}", met[refusal]);
    }
    assert_eq!(met[10..].iter().sum::<u64>(), met[21]);
}
