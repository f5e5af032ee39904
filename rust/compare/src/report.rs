//! Printing a difference.

use crate::case::{difference, Call, Case};
use crate::foreign::PlanWriting;
use crate::graph::Graph;
use crate::parts::Parts;
use crate::refused::Refused;
use crate::said::Said;
use crate::stored::Changed;
use crate::writing::Writing;
use ffi::task;
use reference::{Answer, Counts, Mending, Row};

pub fn print(case: &Case) {
    println!("words: {}{}", case.words.len(), words(&case.words));
    println!("board: {} rows{}", case.board.len(), rows(&case.board));
    let Some(found) = difference(case) else {
        println!("the difference does not come again");
        return;
    };
    for (at, call) in case.calls.iter().enumerate().take(found.call + 1) {
        println!("call {at}: {}", text(call));
    }
    println!("  library:   {}", said(&found.library));
    println!("  reference: {}", said(&found.reference));
    if let Some(spot) = found.spot {
        println!("  {spot}");
    }
    if let Some(rule) = found.broken {
        println!("  the library breaks the rule: {rule}");
    }
}

/// Two lines of the file, or one; its first line says what they hold.
pub fn print_changed(Changed { stored, now, at }: &Changed) {
    println!(
        "{} lines are stored, now there are {}; line {} is the first that differs:",
        stored.len(),
        now.len(),
        at + 1
    );
    println!("  stored: {}", stored.get(*at).unwrap_or(&"no line"));
    println!("  now:    {}", now.get(*at).map_or("no line", |line| line));
}

/// With the counts, where there are any.
fn said(said: &Said) -> String {
    let counts = match said {
        Said::Answer(_) => String::new(),
        Said::Mending(mending) => mending_text(mending),
        Said::Counts(counts) => counts_text(counts),
    };
    answer(said.answer()) + &counts
}

fn mending_text(mending: &Mending) -> String {
    let Mending {
        padded,
        reordered,
        dropped,
        ..
    } = mending;
    format!(" padded {padded} reordered {reordered} dropped {dropped}")
}

fn counts_text(counts: &Counts) -> String {
    let Counts {
        answer: _,
        records,
        accepted,
        refused,
        nodes,
        segments,
        work,
        heavy,
        light,
        dense,
    } = counts;
    let refused = Refused::of(refused);
    format!(
        " records {records} accepted {accepted} refused {{{refused}}} nodes {nodes} \
         segments {segments} work {work} heavy {heavy} light {light} dense {dense}"
    )
}

fn answer(answer: &Answer) -> String {
    let Answer {
        refusal,
        place,
        value,
        ring,
    } = answer;
    let nodes: Vec<u32> = (0..64).filter(|node| ring >> node & 1 == 1).collect();
    format!("refusal {refusal} place {place} value {value} ring {nodes:?}")
}

fn text(call: &Call) -> String {
    match call {
        Call::Plan(record, cost) => format!("plan at cost {cost}, {}", bytes(record)),
        Call::Note(record, cost) => format!("note at cost {cost}, {}", bytes(record)),
        Call::Admit {
            record,
            cores,
            cost,
        } => format!("admit for {cores} at cost {cost}, {}", bytes(record)),
        Call::Withdraw(id) => format!("withdraw {id}"),
        Call::Ask(cores) => format!("ask {cores}"),
        Call::AskToEnd(cores) => format!("ask to the end {cores}"),
        Call::Write(writing) => writing_text(writing),
        Call::Mend { given, lent } => format!("mend into {lent} bytes, {}", bytes(given)),
        Call::ReadGraph(graph) => graph_text(graph),
        Call::Building { file, cost } => format!("building at cost {cost}, {}", file_text(file)),
        Call::ReadPlan(plan) => format!("read a plan, {}", bytes(plan)),
        Call::WritePlan(writing) => plan_writing_text(writing),
        Call::Judge { record, plan, cost } => format!(
            "judge at cost {cost}, {}; the plan, {}",
            bytes(record),
            bytes(plan)
        ),
    }
}

fn writing_text(writing: &Writing) -> String {
    let Writing {
        edition,
        id,
        period,
        executions,
        parents,
        lent,
    } = writing;
    format!(
        "write edition {edition} id {id} period {period} into {lent} bytes, \
         executions {executions:?}, parents in hex {parents:X?}"
    )
}

fn graph_text(graph: &Graph) -> String {
    let Graph {
        text,
        id,
        period,
        lent,
    } = graph;
    format!(
        "read a graph with id {id} period {period} into {lent} bytes, {} bytes: \"{}\"",
        text.len(),
        text.escape_ascii()
    )
}

fn plan_writing_text(writing: &PlanWriting) -> String {
    let PlanWriting { words, id, lent } = writing;
    let listed = self::words(words);
    let many = words.len();
    format!("write a plan with id {id} into {lent} bytes, words: {many}{listed}")
}

/// A record that comes often in a row is printed once, with how many times.
fn file_text(file: &[u8]) -> String {
    let Parts { records, tail } = Parts::of(file);
    let run = |run: &[Vec<u8>]| match run.len() {
        1..=8 => hex(&task::file(run)),
        many => format!(" ({} ) x {many}", hex(&task::file(&run[..1]))),
    };
    let runs: String = records.chunk_by(|one, next| one == next).map(run).collect();
    format!("{} bytes:{runs}{}", file.len(), hex(&tail))
}

fn bytes(record: &[u8]) -> String {
    format!("{} bytes:{}", record.len(), hex(record))
}

fn hex(bytes: &[u8]) -> String {
    bytes.iter().map(|byte| format!(" {byte:02X}")).collect()
}

fn words(words: &[u64]) -> String {
    let set = words.iter().enumerate().filter(|(_, &word)| word != 0);
    let listed = set.map(|(at, word)| format!("\n  word {at}: {word:X}"));
    or_all("0", listed.collect())
}

fn rows(board: &[Row]) -> String {
    let standing = board.iter().enumerate();
    let standing = standing.filter(|(_, row)| **row != Row::default());
    let listed = standing.map(|(at, row)| format!("\n  row {at}: {row:?}"));
    or_all("free", listed.collect())
}

fn or_all(otherwise: &str, listed: String) -> String {
    match listed.is_empty() {
        true => format!(", all {otherwise}"),
        false => format!(", all {otherwise} but{listed}"),
    }
}
