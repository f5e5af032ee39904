//! Plan records: their bytes, their way back, and every refusal at its place.

use reference::{plan, read_plan, write_plan, Answer, PLAN_WORDS};

/// Document 01's listing, its plan's words, and their record.
const LISTING: &[u8] = &[1, 3, 6, 3, 3, 0, 1, 0, 1, 1, 1];
const WORDS: [u64; 21] = [
    5, 3, 3, 2, 1, 12, 2, 1, 12, 1, 1, 6, 0, 30, 500_000, 0, 12, 416_667, 12, 12, 416_667,
];
const RECORD: [u8; 28] = [
    3, 5, 3, 2, 1, 12, 2, 1, 12, 1, 1, 6, 3, 0, 30, 0xA0, 0xC2, 0x1E, 0, 12, 0x9B, 0xB7, 0x19, 12,
    12, 0x9B, 0xB7, 0x19,
];

const OLD: u64 = 0xA5A5_A5A5_A5A5_A5A5;
const OLD_BYTE: u8 = 0xA5;

/// The largest number of nine groups.
const LARGEST: u64 = (1 << 63) - 1;

/// Id, Q and 384 words of nine groups, and two counts.
const LONGEST: usize = 9 * 386 + 2;

fn yes(value: u64) -> Answer {
    Answer {
        value,
        ..Answer::default()
    }
}

fn refused(refusal: u64, place: usize) -> Answer {
    Answer {
        refusal,
        place: place as u64,
        ..Answer::default()
    }
}

/// The answer and the words that were changed, which have to be the first ones.
fn read(record: &[u8]) -> (Answer, Vec<u64>) {
    let mut words = vec![OLD; PLAN_WORDS + 2];
    let answer = read_plan(record, &mut words);
    let end = words.iter().position(|&word| word == OLD).unwrap();
    assert!(words.drain(end..).all(|word| word == OLD));
    (answer, words)
}

/// Of a record that is refused: no word is written, and 16 comes first.
fn refusal(record: &[u8]) -> Answer {
    let (answer, words) = read(record);
    assert_ne!(answer.refusal, 0);
    assert_eq!(words, []);
    let mut few = [OLD; PLAN_WORDS - 1];
    assert_eq!(read_plan(record, &mut few), refused(16, 0));
    assert!(few.iter().all(|&word| word == OLD));
    answer
}

/// The answer and the bytes written; the others have to keep their content.
fn written_into(lent: usize, words: &[u64], id: u64) -> (Answer, Vec<u8>) {
    let mut bytes = vec![OLD_BYTE; lent];
    let answer = write_plan(words, &mut bytes, id);
    let rest = bytes.split_off(answer.value as usize);
    assert!(rest.iter().all(|&byte| byte == OLD_BYTE));
    (answer, bytes)
}

/// A plan's words, and old ones after them.
fn lent(plan: &[u64]) -> Vec<u64> {
    let mut words = plan.to_vec();
    words.resize(PLAN_WORDS, OLD);
    words
}

fn written(plan: &[u64], id: u64) -> Vec<u8> {
    let (answer, bytes) = written_into(LONGEST, &lent(plan), id);
    assert_eq!(answer, yes(bytes.len() as u64));
    bytes
}

/// With so many segments and nodes; the other numbers are all that one.
fn plan_of(segments: usize, nodes: usize, number: u64) -> Vec<u64> {
    let mut words = vec![number, segments as u64, nodes as u64];
    words.resize(3 + 3 * segments + 3 * nodes, number);
    words
}

fn form(mut value: u64) -> Vec<u8> {
    let mut bytes = Vec::new();
    while value >= 128 {
        bytes.push(value as u8 | 0x80);
        value >>= 7;
    }
    bytes.push(value as u8);
    bytes
}

/// The listing's plan record with other bytes for one of its numbers.
fn with(at: usize, length: usize, form: &[u8]) -> Vec<u8> {
    [&RECORD[..at], form, &RECORD[at + length..]].concat()
}

/// Each number of that record: its first byte, and how many it has.
fn numbers() -> Vec<(usize, usize)> {
    let ends = (0..RECORD.len()).filter(|&at| RECORD[at] < 0x80);
    let mut first = 0;
    let number = |end| {
        let number = (first, end + 1 - first);
        first = end + 1;
        number
    };
    ends.map(number).collect()
}

#[test]
fn the_listing() {
    let mut words = [0; PLAN_WORDS];
    assert_eq!(plan(LISTING, &mut words, 0), yes(21));
    assert_eq!(words[..21], WORDS);
    assert_eq!(written(&WORDS, 3), RECORD);
    assert_eq!(read(&RECORD), (yes(3), WORDS.to_vec()));
}

#[test]
fn any_numbers_but_the_counts() {
    for number in (0..9).flat_map(|group| [1 << (7 * group), (1 << (7 * group + 7)) - 1]) {
        for id in [0, 1, 65_535, 65_536, number] {
            let words = plan_of(2, 3, number);
            let record = written(&words, id);
            assert_eq!(record.len(), form(id).len() + 16 * form(number).len() + 2);
            assert_eq!(read(&record), (yes(id), words));
        }
    }
    let words = plan_of(1, 1, 0);
    assert_eq!(written(&words, 0), [0, 0, 1, 0, 0, 0, 1, 0, 0, 0]);
    assert_eq!(read(&[0, 0, 1, 0, 0, 0, 1, 0, 0, 0]), (yes(0), words));
}

#[test]
fn the_longest() {
    let words = plan_of(64, 64, LARGEST);
    let record = written(&words, LARGEST);
    assert_eq!(record.len(), LONGEST);
    let mut back = [OLD; PLAN_WORDS];
    assert_eq!(read_plan(&record, &mut back), yes(LARGEST));
    assert_eq!(back[..], words);
}

#[test]
fn every_two_counts() {
    for segments in 1..=64 {
        for nodes in 1..=64 {
            let words = plan_of(segments, nodes, 7);
            assert_eq!(read(&written(&words, 300)), (yes(300), words));
        }
    }
}

#[test]
fn cut_at_every_byte() {
    let long = written(&plan_of(64, 64, LARGEST), LARGEST);
    for record in [&RECORD[..], &long] {
        for length in 0..record.len() {
            assert_eq!(refusal(&record[..length]), refused(1, length));
        }
    }
}

#[test]
fn bytes_that_follow() {
    for more in [&[0][..], &[0x80], &[0x80; 9], &RECORD] {
        let record = [&RECORD, more].concat();
        assert_eq!(refusal(&record), refused(9, RECORD.len()));
    }
}

#[test]
fn numbers_that_are_padded_or_too_long() {
    for (at, length) in numbers() {
        let bare = &RECORD[at..at + length];
        for bytes in length + 1..=11 {
            let mut padded = bare.to_vec();
            padded[length - 1] |= 0x80;
            padded.resize(bytes - 1, 0x80);
            let open = padded.len();
            padded.push(0);
            let number = if bytes > 9 { 2 } else { 18 };
            assert_eq!(refusal(&with(at, length, &padded)), refused(number, at));
            // The same where the record ends there, but not inside of it.
            let ends = &with(at, length, &padded)[..at + bytes];
            assert_eq!(refusal(ends), refused(number, at));
            if open < 9 {
                assert_eq!(refusal(&ends[..at + open]), refused(1, at + open));
            }
        }
        for (form, number) in [([0xFF; 9], 2), ([0x80; 9], 2)] {
            assert_eq!(refusal(&with(at, length, &form)), refused(number, at));
            let ends = &with(at, length, &form)[..at + 8];
            assert_eq!(refusal(ends), refused(1, at + 8));
        }
    }
}

#[test]
fn counts_outside_their_range() {
    for count in [0, 65, 66, 127, 128, 64 << 7, 1 << 32 | 3, LARGEST] {
        for at in [2, 12] {
            assert_eq!(refusal(&with(at, 1, &form(count))), refused(24, at));
            let ends = &with(at, 1, &form(count))[..at + form(count).len()];
            assert_eq!(refusal(ends), refused(24, at));
        }
    }
    // The form is tried first, and the count before what follows it.
    assert_eq!(refusal(&with(2, 1, &[0x80, 0])), refused(18, 2));
    assert_eq!(refusal(&with(2, 1, &[0])[..4]), refused(24, 2));
    assert_eq!(refusal(&with(12, 1, &[65, 0x80, 0])), refused(24, 12));
    // A count that is too high or too low and in range moves what follows.
    assert_eq!(refusal(&with(2, 1, &[2])), refused(9, 13));
    assert_eq!(refusal(&with(12, 1, &[4])), refused(1, 28));
    assert_eq!(refusal(&with(12, 1, &[2])), refused(9, 23));
}

#[test]
fn writing_into_every_length() {
    for lent_bytes in 0..RECORD.len() {
        let answer = written_into(lent_bytes, &lent(&WORDS), 3).0;
        assert_eq!(answer, refused(19, lent_bytes));
    }
    for lent_bytes in RECORD.len()..RECORD.len() + 9 {
        let expected = (yes(28), RECORD.to_vec());
        assert_eq!(written_into(lent_bytes, &lent(&WORDS), 3), expected);
    }
}

#[test]
fn writing_from_every_number_of_words() {
    for many in [0, 1, 21, 386] {
        let words = &lent(&WORDS)[..many];
        assert_eq!(written_into(LONGEST, words, 3).0, refused(16, 0));
        // Before all others.
        assert_eq!(written_into(0, words, OLD).0, refused(16, 0));
    }
    for many in [387, 388, 1_000] {
        let mut words = lent(&WORDS);
        words.resize(many, OLD);
        assert_eq!(written_into(28, &words, 3), (yes(28), RECORD.to_vec()));
    }
}

#[test]
fn writing_counts_outside_their_range() {
    for count in [0, 65, 66, 1 << 32 | 3, LARGEST, 1 << 63, u64::MAX] {
        for (at, other) in [(1, 2), (2, 1)] {
            let mut words = lent(&WORDS);
            words[at] = count;
            assert_eq!(written_into(LONGEST, &words, 3).0, refused(24, at));
            // Before 28 and 19, and the segments' before the nodes'.
            words[0] = OLD;
            assert_eq!(written_into(0, &words, OLD).0, refused(24, at));
            words[other] = count;
            assert_eq!(written_into(0, &words, OLD).0, refused(24, 1));
        }
    }
}

#[test]
fn writing_words_that_are_too_large() {
    for large in [1 << 63, 1 << 63 | 5, u64::MAX] {
        assert_eq!(
            written_into(LONGEST, &lent(&WORDS), large).0,
            refused(28, 0)
        );
        for at in [0].into_iter().chain(3..21) {
            let mut words = lent(&WORDS);
            words[at] = large;
            assert_eq!(written_into(LONGEST, &words, 3).0, refused(28, 0));
            // Before 19.
            assert_eq!(written_into(27, &words, 3).0, refused(28, 0));
        }
        // Past the plan they are not looked at.
        let mut words = lent(&WORDS);
        words[21..].fill(large);
        assert_eq!(written_into(28, &words, 3), (yes(28), RECORD.to_vec()));
    }
}
