//! Records to be mended: every form of a number, every short list, lists of up to
//! more parents than are allowed, and tasks by chance made sloppy.

use crate::case::Call;
use crate::lists::{room, short};
use crate::random::Random;
use crate::records::{bad_forms, half_joins, misspelt, plain_task, spoilt, with_form};
use crate::tasks::random_task;
use ffi::task::{chain, encoded, fork, stretched, Task};

/// Each number of two tasks in turn, padded or in a form that is a fault; the
/// record goes on, or it ends there.
pub fn forms(random: &mut Random) -> Vec<Call> {
    let mut calls = Vec::new();
    for numbers in [plain_task(chain(3)), half_joins(fork(4))].map(|task| task.numbers()) {
        let length = encoded(&numbers).len() as u64;
        for at in 0..numbers.len() {
            for form in bad_forms(numbers[at]) {
                let given = with_form(&numbers, at, &form);
                let end = encoded(&numbers[..at]).len() + form.len();
                for given in [given[..end].to_vec(), given] {
                    let lent = room(random, length);
                    calls.push(Call::Mend { given, lent });
                }
            }
        }
    }
    calls
}

/// Every list of up to four that are 0 to 3, among four nodes, and among three,
/// where 3 is none.
pub fn lists(random: &mut Random) -> Vec<Call> {
    let mut lists: Vec<Vec<u64>> = vec![vec![]];
    for length in 0..4 {
        let longest = lists.iter().filter(|list| list.len() == length);
        let longer = |list: &Vec<u64>| [0, 1, 2, 3].map(|next| [&list[..], &[next]].concat());
        lists.extend(longest.flat_map(longer).collect::<Vec<_>>());
    }
    let both = |list: Vec<u64>| [3, 4].map(|count| with_list(random, count, &list));
    lists.into_iter().flat_map(both).collect()
}

/// Lists from none to more than 255, upward, backward or of one parent alone;
/// the record is whole, or its last byte is missing.
pub fn counts(random: &mut Random) -> Vec<Call> {
    let mut calls = Vec::new();
    for count in [1, 2, 3, 32, 63, 64] {
        let around = [0, 1, count - 1, count, count + 1];
        let limits = [64, 65, 127, 128, 254, 255, 256, 257, 300, 16_384];
        for length in around.into_iter().chain(limits) {
            let length = length as usize;
            let upward = (0..count).cycle().take(length).collect();
            let backward = (0..count).rev().cycle().take(length).collect();
            for list in [upward, backward, vec![count - 1; length]] {
                let whole = with_list(random, count, &list);
                calls.extend([cut(&whole), whole]);
            }
        }
    }
    calls
}

/// A task of that many nodes, one of which has these parents.
fn with_list(random: &mut Random, count: u64, list: &[u64]) -> Call {
    let mut task = plain_task(vec![vec![]; count as usize]);
    let node = random.index(count as usize);
    let mut once = list.to_vec();
    once.sort_unstable();
    once.dedup();
    task.nodes[node].parents = once;
    let length = task.record().len() as u64;
    task.nodes[node].parents = list.to_vec();
    Call::Mend {
        given: padded(random, &task.numbers()),
        lent: room(random, length),
    }
}

fn cut(call: &Call) -> Call {
    let mut cut = call.clone();
    if let Call::Mend { given, .. } = &mut cut {
        given.pop();
    }
    cut
}

/// Buffers of every length up to the mended record's and a little more; and the
/// ends of joins alone, and of the longest record that is mended.
pub fn lengths(random: &mut Random) -> Vec<Call> {
    let mut calls = Vec::new();
    for mut task in short(random) {
        let length = task.record().len() as u64;
        let given = sloppy(random, &mut task);
        calls.extend(into(&given, 0..length + 9));
    }
    let mut joins = half_joins(chain(3));
    joins.nodes.iter_mut().for_each(|node| node.execution = 0);
    calls.extend(ends(&padded(random, &joins.numbers()), &joins));
    calls.extend(ends(&Task::longest_given(), &Task::longest()));
    calls
}

/// Cut, whole and with a byte behind it, into no bytes and into about as many as
/// the task takes.
fn ends(given: &[u8], task: &Task) -> Vec<Call> {
    let length = task.record().len() as u64;
    let followed = [given, &[0]].concat();
    let ends = [&given[..given.len() - 1], given, &followed];
    let calls = ends.map(|given| into(given, [0, length - 1, length, length + 1]));
    calls.concat()
}

fn into(given: &[u8], lengths: impl IntoIterator<Item = u64>) -> Vec<Call> {
    let mend = |lent| Call::Mend {
        given: given.to_vec(),
        lent,
    };
    lengths.into_iter().map(mend).collect()
}

/// Any task, made sloppy. A few lists are long, and a third of the records arrive
/// damaged or have a number in a bad form.
pub fn any_mending(random: &mut Random) -> Call {
    let mut task = random_task(random, 0);
    let lent = room(random, task.record().len() as u64);
    if random.one_in(8) {
        let node = random.index(task.nodes.len());
        let length = random.pick(&[100, 254, 255, 255, 256, 257, 300]);
        repeat(random, &mut task.nodes[node].parents, length);
    }
    let given = sloppy(random, &mut task);
    let given = match random.below(6) {
        0 => spoilt(random, given),
        1 => misspelt(random, &task.numbers()),
        _ => given,
    };
    Call::Mend { given, lent }
}

/// Parents in drawing order and some of them again, and numbers padded.
fn sloppy(random: &mut Random, task: &mut Task) -> Vec<u8> {
    for node in &mut task.nodes {
        if random.one_in(2) {
            random.shuffle(&mut node.parents);
        }
        let more = random.pick(&[0, 0, 0, 1, 2, 5]);
        let length = node.parents.len() + more;
        repeat(random, &mut node.parents, length);
    }
    padded(random, &task.numbers())
}

/// Some parents again, anywhere, until the list is that long. None can be said
/// again where there is none.
fn repeat(random: &mut Random, parents: &mut Vec<u64>, length: usize) {
    while !parents.is_empty() && parents.len() < length {
        let again = random.pick(parents);
        let at = random.index(parents.len() + 1);
        parents.insert(at, again);
    }
}

/// None of the numbers, a few, many or all, in two to four bytes.
fn padded(random: &mut Random, numbers: &[u64]) -> Vec<u8> {
    let one_in = random.pick(&[u64::MAX, 20, 3, 1]);
    let form = |&number: &u64| {
        let bytes = match random.one_in(one_in) {
            true => random.between(2, 4),
            false => 1,
        };
        stretched(number, bytes as usize)
    };
    numbers.iter().flat_map(form).collect()
}
