//! Files to be walked through: cut, with other bytes and other lengths, with
//! records that are refused by every number, as large as can be, and by chance.

use crate::case::Call;
use crate::chance::{any_cost, any_record};
use crate::costs::{ALLOWED, COSTS, RECORDS};
use crate::counted::LARGEST;
use crate::random::Random;
use crate::records::{bad_forms, plain_task, spoilt, WORKED};
use crate::tasks::task_of;
use ffi::task::{chain, file, fork, number};

/// At a cost by chance.
fn walk(random: &mut Random, file: Vec<u8>) -> Call {
    let cost = any_cost(random);
    Call::Building { file, cost }
}

fn walks(file: &[u8], costs: &[u64]) -> Vec<Call> {
    let walk = |&cost| Call::Building {
        file: file.to_vec(),
        cost,
    };
    costs.iter().map(walk).collect()
}

/// The records of a few small files: none, one of no bytes, document 01's, one
/// whose length takes two bytes, and some by chance.
fn samples(random: &mut Random) -> Vec<Vec<Vec<u8>>> {
    let worked = |record: &&[u8]| record.to_vec();
    let long = plain_task(chain(40)).record();
    let mut samples = vec![
        vec![],
        vec![vec![]],
        WORKED[..6].iter().map(worked).collect(),
        vec![WORKED[4].to_vec(), long, WORKED[5].to_vec()],
    ];
    samples.extend([1, 2, 4].map(|count| {
        let mut record = |_| task_of(random, count, 0).record();
        (0..4).map(&mut record).collect()
    }));
    samples
}

/// Up to every byte.
pub fn cuts(random: &mut Random) -> Vec<Call> {
    let mut calls = Vec::new();
    for records in samples(random) {
        let whole = file(&records);
        let lengths = 0..=whole.len();
        calls.extend(lengths.map(|length| walk(random, whole[..length].to_vec())));
    }
    calls
}

/// Each byte replaced in turn.
pub fn bytes(random: &mut Random) -> Vec<Call> {
    let mut calls = Vec::new();
    for records in samples(random) {
        let whole = file(&records);
        for at in 0..whole.len() {
            let byte = whole[at];
            let around = [byte ^ 0x80, byte.wrapping_add(1), byte.wrapping_sub(1)];
            for byte in [0, 1, 0x7F, 0x80, 0x81, 0xFF].into_iter().chain(around) {
                let mut changed = whole.clone();
                changed[at] = byte;
                calls.push(walk(random, changed));
            }
        }
    }
    calls
}

/// Each length in turn in other forms, also where no record is behind it; the file
/// goes on, or it ends there. One length takes three bytes.
pub fn lengths(random: &mut Random) -> Vec<Call> {
    let mut calls = Vec::new();
    let long = [WORKED[0], &[0; 20_000]].concat();
    let long = vec![long, WORKED[1].to_vec()];
    for mut records in samples(random).into_iter().chain([long]) {
        records.push(vec![]);
        for at in 0..records.len() {
            for form in forms(&records[at..]) {
                let whole = with_length(&records, at, &form);
                let end = file(&records[..at]).len() + form.len();
                for file in [whole[..end].to_vec(), whole] {
                    calls.push(walk(random, file));
                }
            }
        }
    }
    calls
}

/// Of the first record's length: bad ones, and good ones of other values, around
/// its own, around what is left of the file, and where a form gets longer.
fn forms(records: &[Vec<u8>]) -> Vec<Vec<u8>> {
    let length = records[0].len() as u64;
    let left = length + file(&records[1..]).len() as u64;
    let mut forms = bad_forms(length);
    for limit in [length, left, 1 << 7, 1 << 14, 1 << 21, 1 << 28] {
        let around = limit.saturating_sub(1)..=limit + 1;
        forms.extend(around.map(number));
    }
    forms
}

/// The file with one length's bytes replaced.
fn with_length(records: &[Vec<u8>], at: usize, form: &[u8]) -> Vec<u8> {
    let (before, after) = (file(&records[..at]), file(&records[at + 1..]));
    [&before, form, &records[at], &after].concat()
}

/// Every two of those that are planned or refused by a number, at each cost; with
/// a density around one; and from none to more than 8 bits count.
pub fn records(random: &mut Random) -> Vec<Call> {
    let mut calls: Vec<Call> = ALLOWED.into_iter().flat_map(around_one).collect();
    for one in RECORDS {
        for other in RECORDS {
            let both = file(&[one.to_vec(), other.to_vec()]);
            calls.extend(walks(&both, &COSTS));
        }
    }
    let all = WORKED.iter().chain(&RECORDS).cycle();
    let all: Vec<Vec<u8>> = all.take(300).map(|record| record.to_vec()).collect();
    calls.extend((0..=all.len()).map(|many| walk(random, file(&all[..many]))));
    calls
}

/// All segments are heavy, so the root's density is work over period.
fn around_one(cost: u64) -> Vec<Call> {
    let mut task = plain_task(fork(17));
    let nodes = task.nodes.iter_mut();
    nodes.for_each(|node| node.execution = 60_000);
    let work = 17 * (60_000 + cost);
    let mut with_period = |period| {
        task.period = period;
        let file = file(&[task.record()]);
        Call::Building { file, cost }
    };
    (work - 2..=work + 2).map(&mut with_period).collect()
}

/// Files of as many bytes as there may be, of one more and of one less. These are
/// slow to walk through, so at most costs there is a refusal before that.
pub fn largest(random: &mut Random) -> Vec<Call> {
    let mut calls = Vec::new();
    for whole in full(random) {
        let longer = [&whole[..], &[0]].concat();
        calls.extend(walks(&longer, &COSTS));
        calls.extend(walks(&whole, &[0, 256, u64::MAX]));
        calls.extend(walks(&whole[..LARGEST - 1], &[255]));
    }
    calls
}

/// Records of no bytes; one of four nodes again and again, and one whose work is
/// more than 32 bits in all; records by chance, of which the last is whole, has its
/// length cut, or runs past the end; one record alone; a length damaged at once.
fn full(random: &mut Random) -> [Vec<u8>; 8] {
    let none = vec![0; LARGEST];
    let [four, longest] = [WORKED[4], WORKED[10]].map(|record| filled(&[record.to_vec()]));
    let records: Vec<Vec<u8>> = (0..500).map(|_| part(random, 0)).collect();
    let whole = filled(&records);
    let [cut, past] = [0x80, 1].map(|last| [&whole[..LARGEST - 1], &[last]].concat());
    let one = file(&[vec![1; LARGEST - 3]]);
    let padded = [&[0x80], &none[1..]].concat();
    [none, four, longest, whole, cut, past, one, padded]
}

/// These records as often as they fit, and then some of no bytes.
fn filled(records: &[Vec<u8>]) -> Vec<u8> {
    let records = file(records);
    let mut filled = records.repeat(LARGEST / records.len());
    filled.resize(LARGEST, 0);
    filled
}

/// Any record, or one of no bytes.
fn part(random: &mut Random, cost: u64) -> Vec<u8> {
    match random.one_in(12) {
        true => vec![],
        false => any_record(random, cost),
    }
}

/// Any records. Half of the files don't arrive as they were: with a length in
/// another form, cut, or with bytes changed.
pub fn any_building(random: &mut Random) -> Call {
    let cost = any_cost(random);
    let most = random.pick(&[1, 4, 4, 12]);
    let many = random.between(0, most);
    let mut records: Vec<Vec<u8>> = (0..many).map(|_| part(random, cost)).collect();
    let mut whole = file(&records);
    match random.below(8) {
        0 | 1 => {
            records.push(vec![]);
            let at = random.index(records.len());
            let forms = forms(&records[at..]);
            whole = with_length(&records, at, &forms[random.index(forms.len())]);
        }
        2 => whole.truncate(random.index(whole.len() + 1)),
        3 => whole = spoilt(random, whole),
        _ => (),
    }
    Call::Building { file: whole, cost }
}
