//! Compares the proved library with the reference, call by call, and with its
//! own stored answers.

mod boards;
mod case;
mod chance;
mod costs;
mod counted;
mod draft;
mod edition1;
mod families;
mod files;
mod fits;
mod foreign;
mod graph;
mod graphed;
mod graphing;
mod guarded;
mod joins;
mod judged;
mod judging;
mod lists;
mod loops;
mod mended;
mod mending;
mod parts;
mod random;
mod recorded;
mod recording;
mod records;
mod refused;
mod report;
mod rounds;
mod said;
mod sales;
mod shrink;
mod sketch;
mod stored;
mod tasks;
mod to_end;
mod writing;
mod written;

use families::Run;
use std::env;
use std::process::ExitCode;

struct Options {
    cases: u64,
    seed: u64,
    store: bool,
}

fn options() -> Option<Options> {
    let mut options = Options {
        cases: 600_000,
        seed: 1,
        store: false,
    };
    let mut arguments = env::args().skip(1);
    while let Some(name) = arguments.next() {
        let mut value = || arguments.next()?.parse().ok();
        match name.as_str() {
            "--cases" => options.cases = value()?,
            "--seed" => options.seed = value()?,
            "--store" => options.store = true,
            _ => return None,
        }
    }
    Some(options)
}

fn main() -> ExitCode {
    let Some(options) = options() else {
        eprintln!("usage: compare [--cases NUMBER] [--seed NUMBER] [--store]");
        return ExitCode::from(2);
    };
    if options.store {
        stored::print();
        return ExitCode::SUCCESS;
    }
    match stored::check() {
        Ok(answers) => println!("stored answers: {answers}, all as they were"),
        Err(changed) => {
            report::print_changed(&changed);
            return ExitCode::FAILURE;
        }
    }
    compare(options)
}

fn compare(Options { cases, seed, .. }: Options) -> ExitCode {
    println!("seed {seed}");
    let mut run = Run::of(cases, seed);
    let Err(found) = run.all() else {
        print_tally(&run);
        println!("compared {} cases, 0 differences", run.compared);
        return ExitCode::SUCCESS;
    };
    println!(
        "\ndifference in \"{}\", smallest input found:",
        found.family
    );
    report::print(&shrink::shrink(found.case));
    println!("compared {} cases, 1 difference", run.compared);
    ExitCode::FAILURE
}

fn print_tally(Run { tally, again, .. }: &Run) {
    let guarded::Tally { kept, turned_away } = tally.guarded;
    println!("of these, tasks admitted: {kept}, turned away by 20: {turned_away}");
    let written::Tally { written, refused } = &tally.written;
    println!("records written: {written}, refused by {refused}");
    let mended::Tally {
        mended,
        sloppy,
        padded,
        reordered,
        dropped,
        refused,
    } = &tally.mended;
    println!("records mended: {mended}, refused by {refused}");
    print!("sloppy ones mended: {sloppy}, with numbers padded: {padded}, ");
    println!("lists reordered: {reordered}, parents dropped: {dropped}");
    let graphed::Tally { read, refused } = &tally.graphed;
    println!("graphs read: {read}, refused by {refused}");
    let counted::Tally {
        walked,
        refused,
        accepted,
        records_refused,
        heavy,
        light,
        dense,
    } = &tally.counted;
    println!("files walked to their end: {walked}, refused by {refused}");
    println!("records in files accepted: {accepted}, refused by {records_refused}");
    println!("of those, segments heavy: {heavy}, light: {light}, tasks dense: {dense}");
    print_plans(tally);
    println!("records read, then written and mended, byte for byte: {again}");
}

fn print_plans(tally: &case::Tally) {
    let recorded::Tally {
        read,
        not_read,
        written,
        not_written,
    } = &tally.recorded;
    println!("plan records read: {read}, refused by {not_read}");
    println!("plan records written: {written}, refused by {not_written}");
    let judged::Tally {
        accepted,
        refused,
        rules,
        own,
    } = &tally.judged;
    println!("plans accepted by the judge: {accepted}, refused by {refused}");
    println!("of these, by 25 at the rules {rules}");
    println!("plans made, then written and accepted as they were: {own}");
}
