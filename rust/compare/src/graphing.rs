//! Texts of graphs to be read: cut, and with other bytes, words and numbers, two
//! faults at once, every number of tasks, and tasks by chance as texts.

use crate::graph::Graph;
use crate::lists::room;
use crate::random::Random;
use crate::records::{half_joins, plain_task};
use crate::sketch::{Sketch, Word, COMMENT, PARTINGS};
use crate::tasks::{random_task, task_of};
use ffi::task::{backward, chain, dense, fork, ring, Task};
use std::iter;

/// A task, and its text in some spelling.
type Sample = (Task, Sketch);

/// A few small tasks, each as it would be drawn up and by chance.
fn samples(random: &mut Random) -> Vec<Sample> {
    let mut tasks = vec![
        plain_task(chain(2)),
        half_joins(ring(2)),
        plain_task(backward(chain(3))),
        half_joins(fork(4)),
        plain_task(dense(5)),
        task_of(random, 3, 0),
    ];
    tasks[4]
        .nodes
        .iter_mut()
        .for_each(|node| node.parents.reverse());
    let drawn_up = |task: &Task| Sketch::of(&task.text(1));
    let drawn_up = tasks.iter().map(|task| (task.clone(), drawn_up(task)));
    let mut samples: Vec<Sample> = drawn_up.collect();
    samples.extend(tasks.into_iter().map(|task| by_chance(random, task)));
    samples
}

/// One with as many tasks as there can be.
fn large() -> Sample {
    let task = plain_task(fork(64));
    let sketch = Sketch::of(&task.text(1));
    (task, sketch)
}

/// The task's own id and period, and mostly bytes enough for its record.
fn graph(random: &mut Random, task: &Task, text: Vec<u8>) -> Graph {
    Graph {
        text,
        id: task.id,
        period: task.period,
        lent: room(random, task.record().len() as u64),
    }
}

/// Up to every byte.
pub fn cuts(random: &mut Random) -> Vec<Graph> {
    let mut graphs = Vec::new();
    for (task, sketch) in samples(random).into_iter().chain([large()]) {
        let text = sketch.text();
        let lengths = 0..=text.len();
        graphs.extend(lengths.map(|length| graph(random, &task, text[..length].to_vec())));
    }
    graphs
}

/// Partings and what might be taken for one, digits and their neighbours.
const BYTES: [u8; 18] = *b"\0\t\n\x0b\x0c\r #+-/09:a\x7f\x80\xff";

/// Each byte replaced in turn.
pub fn bytes(random: &mut Random) -> Vec<Graph> {
    let mut graphs = Vec::new();
    for (task, sketch) in samples(random) {
        let text = sketch.text();
        for at in 0..text.len() {
            for byte in BYTES.into_iter().chain([text[at].wrapping_add(1)]) {
                let mut changed = text.clone();
                changed[at] = byte;
                graphs.push(graph(random, &task, changed));
            }
        }
    }
    graphs
}

const INSERTED: [&[u8]; 9] = [
    b"0",
    b"1",
    b"3",
    b"64",
    b"65536",
    b"x",
    b"#",
    b"# 0",
    b"18446744073709551616",
];

/// Each word in turn left out, said twice, exchanged with every later one, and
/// with another before it.
pub fn words(random: &mut Random) -> Vec<Graph> {
    let mut graphs = Vec::new();
    for (task, sketch) in samples(random) {
        for at in 0..sketch.words.len() {
            for way in 0..ways(&sketch, at) {
                let changed = with_other_words(&sketch, at, way);
                graphs.push(graph(random, &task, changed.text()));
            }
        }
    }
    graphs
}

/// In how many ways words can be changed there.
fn ways(sketch: &Sketch, at: usize) -> usize {
    INSERTED.len() + 1 + sketch.words.len() - at
}

/// One of these ways. A long text has so many that not all are made at once.
fn with_other_words(sketch: &Sketch, at: usize, way: usize) -> Sketch {
    if let Some(bytes) = INSERTED.get(way) {
        return with_word(sketch, at, bytes);
    }
    let mut changed = sketch.clone();
    let other = at + way - INSERTED.len();
    if other == at {
        changed.words.remove(at);
    } else if let Some(later) = sketch.words.get(other) {
        changed.words[at].bytes = later.bytes.clone();
        changed.words[other].bytes = sketch.words[at].bytes.clone();
    } else {
        changed = with_word(sketch, at, &sketch.words[at].bytes);
    }
    changed
}

/// With one word more, before another or at the end.
fn with_word(sketch: &Sketch, at: usize, bytes: &[u8]) -> Sketch {
    let mut changed = sketch.clone();
    let word = Word {
        before: b" ".to_vec(),
        bytes: bytes.to_vec(),
    };
    changed.words.insert(at, word);
    if let Some(next) = changed.words.get_mut(at + 1) {
        next.before.push(b'\n');
    }
    changed
}

/// Each word in turn in many forms; of the largest task a few words.
pub fn numbers(random: &mut Random) -> Vec<Graph> {
    let mut graphs = Vec::new();
    for (task, sketch) in samples(random).into_iter().chain([large()]) {
        for at in 0..sketch.words.len() {
            if sketch.words.len() > 99 && !random.one_in(20) {
                continue;
            }
            for form in forms(&sketch, at) {
                let mut changed = sketch.clone();
                changed.words[at].bytes = form;
                graphs.push(graph(random, &task, changed.text()));
            }
        }
    }
    graphs
}

/// Around every limit there is, too large for some number of bits, in other
/// spellings, and no numbers. None of a comment.
fn forms(sketch: &Sketch, at: usize) -> Vec<Vec<u8>> {
    let Some(value) = sketch.words[at].value() else {
        return vec![];
    };
    let count = sketch.words[0].value().unwrap_or(0) + 2;
    let forms = [limits(value, count), larger(value), spellings(value)];
    forms
        .into_iter()
        .flatten()
        .map(String::into_bytes)
        .collect()
}

fn limits(value: u64, count: u64) -> Vec<String> {
    let limits = [0, 61, 62, 63, 64, 65, 127, 128, 255, 65_535, 65_536];
    let counts = [count - 2, count - 1, count, count + 1];
    let values = limits.into_iter().chain(counts);
    let values = values.chain([value + 1, 10 * value]);
    values.map(|value| value.to_string()).collect()
}

/// Of these the lowest bits, or the first digits, do not tell that they are.
fn larger(value: u64) -> Vec<String> {
    let bits = [8, 16, 31, 32, 63, 64, 65, 96, 127];
    let congruent = bits.map(|bits| (1 << bits) + u128::from(value));
    let mut larger: Vec<String> = congruent.iter().map(u128::to_string).collect();
    // By 2^128.
    larger.push(format!(
        "340282366920938463463374607431768{:06}",
        211_456 + value
    ));
    larger.push(format!("{value}{:030}", 0));
    for (digit, many) in [("9", 19), ("9", 20), ("1", 3_000), ("9", 3_000)] {
        larger.push(digit.repeat(many));
    }
    larger
}

/// With zeros in front, and with what is no digit, also where the digits before
/// it are above every limit.
fn spellings(value: u64) -> Vec<String> {
    let zeros = [1, 19, 20, 300, 3_000].map(|zeros| "0".repeat(zeros));
    let mut spellings: Vec<String> = zeros.map(|zeros| format!("{zeros}{value}")).into();
    spellings.extend(["-", "+", "0x"].map(|before| format!("{before}{value}")));
    spellings.extend(["#", ".", "\t", "999999x"].map(|after| format!("{value}{after}")));
    spellings
}

/// No number, and above one limit or all of them.
const FAULTS: [&[u8]; 4] = [b"1x", b"64", b"70000", b"99999999999999999999"];

const IDS: [u64; 7] = [0, 1, 65_535, 65_536, 1 << 32, 1 << 32 | 7, u64::MAX];

const PERIODS: [u64; 7] = [0, 1, 16_777_215, 16_777_216, 1 << 32, 1 << 32 | 9, u64::MAX];

/// Every two words wrong together, and every id and period before texts that
/// are read or refused by each number.
pub fn faults(random: &mut Random) -> Vec<Graph> {
    let mut graphs = Vec::new();
    for task in [plain_task(chain(3)), half_joins(fork(4))] {
        let sketch = Sketch::of(&task.text(1));
        for later in 0..sketch.words.len() {
            for earlier in 0..later {
                for (early, late) in FAULTS.iter().flat_map(|one| FAULTS.map(|two| (one, two))) {
                    let mut changed = sketch.clone();
                    changed.words[earlier].bytes = early.to_vec();
                    changed.words[later].bytes = late.to_vec();
                    graphs.push(graph(random, &task, changed.text()));
                }
            }
        }
    }
    graphs.extend(heads(random));
    graphs
}

const TEXTS: [&[u8]; 8] = [
    b"0 0 5 0 1 0 1 0",
    b"0 0 0 0 1 0 1 0",
    b"",
    b"0 0 5",
    b"x",
    b"63",
    b"0 0 65536",
    b"0 0 5 3",
];

fn heads(random: &mut Random) -> Vec<Graph> {
    let mut graphs = Vec::new();
    for text in TEXTS {
        for id in IDS {
            graphs.extend(PERIODS.map(|period| Graph {
                text: text.to_vec(),
                id,
                period,
                lent: random.pick(&[0, 7, 8, 20]),
            }));
        }
    }
    graphs
}

/// Buffers of every length up to the record's and a little more; and the ends of
/// a text in which nothing runs, and of one whose record is the longest.
pub fn lengths(random: &mut Random) -> Vec<Graph> {
    let mut graphs = Vec::new();
    for (task, sketch) in samples(random) {
        let length = task.record().len() as u64;
        graphs.extend((0..length + 9).map(|lent| Graph {
            lent,
            ..graph(random, &task, sketch.text())
        }));
    }
    let idle = idle(half_joins(chain(3)));
    graphs.extend(ends(random, &idle, &idle.text(1)));
    graphs.extend(ends(random, &Task::longest(), &Task::longest_text()));
    graphs
}

fn idle(mut task: Task) -> Task {
    task.nodes.iter_mut().for_each(|node| node.execution = 0);
    task
}

/// Cut, whole, and with a word, a comment or both in one behind it, into about as
/// many bytes as the task takes.
fn ends(random: &mut Random, task: &Task, text: &[u8]) -> Vec<Graph> {
    let length = task.record().len() as u64;
    let cut = text.trim_ascii_end();
    let cut = &cut[..cut.len() - 1];
    let mut graphs = Vec::new();
    let behind = ["", "0", "#", "0#"].map(|word| [text, word.as_bytes()].concat());
    for text in iter::once(cut).chain(behind.iter().map(Vec::as_slice)) {
        for lent in [0, length - 1, length, length + 1] {
            graphs.push(Graph {
                lent,
                ..graph(random, task, text.to_vec())
            });
        }
    }
    graphs
}

/// Every number of tasks, each with all of them as predecessors, and with none
/// that runs; the count is right, or one less or more.
pub fn counts(random: &mut Random) -> Vec<Graph> {
    let mut graphs = Vec::new();
    for count in 2..=64 {
        let mut full = plain_task(vec![(0..count).rev().collect(); count as usize]);
        let last = full.nodes.len() - 1;
        full.nodes[last].execution = 65_535;
        for task in [idle(full.clone()), full] {
            let sketch = Sketch::of(&task.text(1));
            for said in (count - 2).saturating_sub(1)..count {
                let mut changed = sketch.clone();
                changed.words[0].set(said);
                graphs.push(graph(random, &task, changed.text()));
            }
        }
    }
    graphs
}

/// Any task as a text. A third of the texts arrive damaged, and a few with an id
/// or a period that is none.
pub fn any_graph(random: &mut Random) -> Graph {
    let mut task = random_task(random, 0);
    if task.nodes.len() < 2 {
        task = task_of(random, 2, 0);
    }
    if random.one_in(32) {
        task = idle(task);
    }
    let (task, mut sketch) = by_chance(random, task);
    if random.one_in(6) {
        change_a_word(random, &mut sketch);
    }
    let mut text = sketch.text();
    if random.one_in(6) {
        change_bytes(random, &mut text);
    }
    let mut graph = graph(random, &task, text);
    if random.one_in(16) {
        graph.id = random.pick(&IDS);
    }
    if random.one_in(16) {
        graph.period = random.pick(&PERIODS);
    }
    graph
}

/// Lists in any order, partings of all kinds, some zeros in front, and sometimes
/// a comment.
fn by_chance(random: &mut Random, mut task: Task) -> Sample {
    for node in &mut task.nodes {
        if random.one_in(2) {
            random.shuffle(&mut node.parents);
        }
    }
    let mut sketch = Sketch::of(&task.text(1));
    let one_in = random.pick(&[u64::MAX, 30, 4]);
    for word in &mut sketch.words {
        word.before = partings(random);
        if random.one_in(one_in) {
            let zeros = random.pick(&[1, 1, 2, 3, 25]);
            word.bytes.splice(..0, vec![b'0'; zeros]);
        }
    }
    sketch.after = match random.one_in(2) {
        true => vec![],
        false => partings(random),
    };
    if random.one_in(2) {
        sketch.words[0].before.clear();
    }
    if random.one_in(3) {
        let comment = random.pick(&COMMENTS);
        let end = sketch.words.len();
        sketch = with_word(&sketch, end, comment);
    }
    (task, sketch)
}

const COMMENTS: [&[u8]; 8] = [
    b"#",
    b"# by chance\n",
    b"#1",
    b"##\t#",
    b"#\n5 0 0\n# x",
    b"#\0\x80\xff",
    b"#\r\n0 0 0 0",
    b"#0# 1",
];

/// One to four.
fn partings(random: &mut Random) -> Vec<u8> {
    let many = random.pick(&[1, 1, 1, 2, 3, 4]);
    (0..many).map(|_| random.pick(&PARTINGS)).collect()
}

/// Another number, none at all, or words in another order.
fn change_a_word(random: &mut Random, sketch: &mut Sketch) {
    let at = random.index(sketch.words.len());
    let mut forms = forms(sketch, at);
    match random.below(3) {
        0 => {
            let way = random.index(ways(sketch, at));
            *sketch = with_other_words(sketch, at, way);
        }
        _ if !forms.is_empty() => {
            sketch.words[at].bytes = forms.swap_remove(random.index(forms.len()));
        }
        _ => sketch.words.truncate(at),
    }
}

/// One to three of them.
fn change_bytes(random: &mut Random, text: &mut Vec<u8>) {
    for _ in 0..random.between(1, 3) {
        let at = random.index(text.len() + 1);
        let byte = random.pick(&[b'0', b'1', b'9', b' ', b'\n', b'\t', COMMENT, b'x', 0xFF]);
        match random.below(4) {
            0 => text.insert(at, byte),
            1 if at < text.len() => drop(text.remove(at)),
            2 if at < text.len() => text[at] = byte,
            3 if at < text.len() => text[at] ^= 1 << random.below(8),
            _ => text.truncate(at),
        }
    }
}
