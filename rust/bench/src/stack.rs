//! Stack depth: the stack below a call is painted, and after the call it is
//! seen how far down the paint is gone.

use crate::frames;
use crate::setup::{
    board, half_joins, lists, longest_plan, own_plan, roomy_record, Aligned, CORES, COST, LONGEST,
    LONGEST_PLAN, RING, SHAPES,
};
use ffi::task::{file, Task};
use reference::{Answer, Counts, Mending, Row, PLAN_WORDS};
use std::hint::black_box;
use std::ptr;
use std::thread;

const STACK_BYTES: usize = 8 << 20;
const PAINTED_BYTES: usize = 4 << 20;
const PAINT: u64 = 0x5AFE_57AC_C0DE_D00D;
const WORD: usize = size_of::<u64>();

/// Painting and scanning have frames of their own; the painted part starts
/// this much lower, and the measured call runs below twice as much.
const GAP: usize = 4_096;

/// What the segment step may take, in the service monitor.
const STEP_BYTES: usize = 2_048;

/// The table's executions and parent sets, which the step is handed by value.
const TABLE_BYTES: usize = 2 * 64 * WORD;

pub fn print() {
    println!();
    println!("stack in bytes, with the small frame that makes the call; for plan, note and");
    println!("admit the deepest of 64 nodes in each shape, a chain half of joins, the ring and");
    println!("the longest record, at cost {COST}; admit is for {CORES} cores, which have room;");
    println!("write is of the longest record, mend of that and of the longest that is mended,");
    println!("read a graph of the longest record's text, building of plan's records in a file;");
    println!("a plan is written and read with numbers as long as can be, judge is of plan's");
    println!("records with their own plans");
    println!("{:42}{:>9}{:>11}", "", "library", "reference");
    let with_id = |(shape, id)| roomy_record(shape, 64, id);
    let shapes = SHAPES.into_iter().chain([RING]);
    let mut records: Vec<Vec<u8>> = shapes.zip(90..).map(with_id).collect();
    records.extend([half_joins(64, 99), Task::longest().record()]);
    let planned = plan_depths(&records);
    put_depths(&records);
    board_depths();
    write_depths();
    line("mend", mend_depth(ffi::mend), mend_depth(reference::mend));
    graph_depths();
    building_depths(&records, planned);
    plan_record_depths();
    judge_depths(&records, planned);
    if cfg!(target_arch = "x86_64") {
        step_depth();
    }
}

/// The segment step is put in line in `plan_table`, with all that writes the
/// plan after it: what that function takes beside the table bounds the step.
fn step_depth() {
    let step = frames::depth("plans::plan_table") - TABLE_BYTES;
    println!("the segment step, by the frames of the object code: {step}");
    assert!(
        step <= STEP_BYTES,
        "the segment step has {STEP_BYTES} bytes"
    );
}

fn line(name: &str, library: usize, reference: usize) {
    println!("{name:42}{library:9}{reference:11}");
}

fn plan_depths(records: &[Vec<u8>]) -> [usize; 2] {
    let mut words = [0; PLAN_WORDS];
    let library = deepest(records, |record| {
        black_box(ffi::plan(record, black_box(&mut words), COST));
    });
    let reference = deepest(records, |record| {
        black_box(reference::plan(record, black_box(&mut words), COST));
    });
    line("plan", library, reference);
    [library, reference]
}

/// Noted, admitted, and what the guard takes.
fn put_depths(records: &[Vec<u8>]) {
    let noted = [
        put_depth(records, |record, words, rows| {
            ffi::note(record, words, rows, COST)
        }),
        put_depth(records, |record, words, rows| {
            reference::note(record, words, rows, COST)
        }),
    ];
    let admitted = [
        put_depth(records, |record, words, rows| {
            ffi::admit(record, words, rows, CORES, COST)
        }),
        put_depth(records, |record, words, rows| {
            reference::admit(record, words, rows, CORES, COST)
        }),
    ];
    line("note", noted[0], noted[1]);
    line("admit", admitted[0], admitted[1]);
    less("admit less note", admitted, noted);
}

/// What a call takes more than another.
fn less(name: &str, call: [usize; 2], other: [usize; 2]) {
    let more = |side: usize| call[side] as isize - other[side] as isize;
    println!("{name:42}{:+9}{:+11}", more(0), more(1));
}

/// All but the ring and the longest record find a row.
fn put_depth(
    records: &[Vec<u8>],
    put: impl Fn(&[u8], &mut [u64], &mut [Row]) -> Answer + Send + Sync,
) -> usize {
    let mut words = [0; PLAN_WORDS];
    let mut rows = board(10);
    let depth = deepest(records, |record| {
        black_box(put(record, black_box(&mut words), black_box(&mut rows)));
    });
    assert!(rows.iter().all(|row| row.id != 0), "a task was turned away");
    depth
}

fn board_depths() {
    let mut rows = board(16);
    let library = depth(&mut || {
        black_box(ffi::withdraw(black_box(&mut rows), black_box(16)));
    });
    let mut rows = board(16);
    let reference = depth(&mut || {
        black_box(reference::withdraw(black_box(&mut rows), black_box(16)));
    });
    line("withdraw", library, reference);
    ask_depths();
}

fn ask_depths() {
    let rows = board(16);
    let library = depth(&mut || {
        black_box(ffi::ask(black_box(&rows), black_box(16)));
    });
    let reference = depth(&mut || {
        black_box(reference::ask(black_box(&rows), black_box(16)));
    });
    line("ask", library, reference);
    let library = depth(&mut || {
        black_box(ffi::ask_to_end(black_box(&rows), black_box(16)));
    });
    let reference = depth(&mut || {
        black_box(reference::ask_to_end(black_box(&rows), black_box(16)));
    });
    line("ask to the end", library, reference);
}

fn write_depths() {
    let task = Task::longest();
    let [Aligned(executions), Aligned(parents)] = &lists(&task);
    let (edition, id, period) = (task.edition, task.id, task.period);
    let mut bytes = [0; LONGEST];
    let library = depth(&mut || {
        let bytes = black_box(&mut bytes);
        black_box(ffi::write_record(
            executions, parents, bytes, edition, id, period,
        ));
    });
    let reference = depth(&mut || {
        let bytes = black_box(&mut bytes);
        black_box(reference::write_record(
            executions, parents, bytes, edition, id, period,
        ));
    });
    assert_eq!(bytes[..], task.record());
    line("write", library, reference);
}

fn mend_depth(mend: impl Fn(&[u8], &mut [u8]) -> Mending + Send + Sync) -> usize {
    let longest = Task::longest().record();
    let mut bytes = [0; LONGEST];
    let depth = deepest(&[longest.clone(), Task::longest_given()], |given| {
        black_box(mend(given, black_box(&mut bytes)));
    });
    assert_eq!(bytes[..], longest);
    depth
}

fn graph_depths() {
    let library = graph_depth(ffi::read_graph);
    let reference = graph_depth(reference::read_graph);
    line("read a graph", library, reference);
}

fn graph_depth(read: impl Fn(&[u8], &mut [u8], u64, u64) -> Answer + Send + Sync) -> usize {
    let task = Task::longest();
    let text = Task::longest_text();
    let mut bytes = [0; LONGEST];
    let depth = depth(&mut || {
        black_box(read(&text, black_box(&mut bytes), task.id, task.period));
    });
    let record = Task { edition: 2, ..task }.record();
    assert_eq!(bytes[..], record);
    depth
}

/// Walked through, and what the walk takes beside planning.
fn building_depths(records: &[Vec<u8>], planned: [usize; 2]) {
    let file = file(records);
    let walked = [
        building_depth(&file, ffi::building),
        building_depth(&file, reference::building),
    ];
    line("building", walked[0], walked[1]);
    less("building less plan", walked, planned);
}

/// Its answer, which has 328 bytes, is in the frame that makes the call.
fn building_depth(file: &[u8], building: impl Fn(&[u8], u64) -> Counts + Send + Sync) -> usize {
    let mut counts = Counts::default();
    let depth = depth(&mut || counts = building(black_box(file), COST));
    assert_eq!(counts.answer.refusal, 0);
    depth
}

fn plan_record_depths() {
    let (Aligned(words), id) = longest_plan();
    let mut record = [0; LONGEST_PLAN];
    let library = depth(&mut || {
        black_box(ffi::write_plan(&words, black_box(&mut record), id));
    });
    let reference = depth(&mut || {
        black_box(reference::write_plan(&words, black_box(&mut record), id));
    });
    line("write a plan", library, reference);
    let mut read = [0; PLAN_WORDS];
    let library = depth(&mut || {
        black_box(ffi::read_plan(&record, black_box(&mut read)));
    });
    let reference = depth(&mut || {
        black_box(reference::read_plan(&record, black_box(&mut read)));
    });
    assert_eq!(read, words);
    line("read a plan", library, reference);
}

/// Judged, and what the judge takes beside planning.
fn judge_depths(records: &[Vec<u8>], planned: [usize; 2]) {
    let judged = [
        judge_depth(records, ffi::judge),
        judge_depth(records, reference::judge),
    ];
    line("judge", judged[0], judged[1]);
    less("judge less plan", judged, planned);
}

/// All but the ring and the longest record are accepted.
fn judge_depth(
    records: &[Vec<u8>],
    judge: impl Fn(&[u8], &[u8], &mut [u64], u64) -> Answer + Send + Sync,
) -> usize {
    let mut words = [0; PLAN_WORDS];
    let mut accepted = 0;
    let depths = records.iter().map(|record| {
        let plan = own_plan(record, COST);
        let mut answer = Answer::default();
        let depth = depth(&mut || {
            answer = judge(black_box(record), &plan, black_box(&mut words), COST);
        });
        accepted += usize::from(answer.refusal == 0);
        depth
    });
    let deepest = depths.max().unwrap_or(0);
    assert_eq!(accepted, records.len() - 2, "a plan was refused");
    deepest
}

fn deepest(records: &[Vec<u8>], mut call: impl FnMut(&[u8]) + Send) -> usize {
    let depths = records
        .iter()
        .map(|record| depth(&mut || call(black_box(record))));
    depths.max().unwrap_or(0)
}

/// What the call takes beyond a call that does nothing.
fn depth(call: &mut (dyn FnMut() + Send)) -> usize {
    let nothing = on_a_big_stack(&mut || {
        black_box(());
    });
    on_a_big_stack(call) - nothing
}

fn on_a_big_stack(call: &mut (dyn FnMut() + Send)) -> usize {
    thread::scope(|scope| {
        let measured = thread::Builder::new()
            .stack_size(STACK_BYTES)
            .spawn_scoped(scope, || painted_away(call))
            .expect("a thread for the measurement");
        measured.join().expect("the measured call returns")
    })
}

/// Distance from this frame down to the lowest word that lost its paint.
#[inline(never)]
fn painted_away(call: &mut (dyn FnMut() + Send)) -> usize {
    let mark = 0u64;
    let here = black_box(ptr::from_ref(&mark)).expose_provenance();
    let top = here - GAP;
    paint(top);
    below_the_gap(call);
    let lowest = lowest_change(top);
    assert!(lowest > top - PAINTED_BYTES, "deeper than what was painted");
    here - lowest
}

#[inline(never)]
fn below_the_gap(call: &mut (dyn FnMut() + Send)) {
    let gap = [0u8; 2 * GAP];
    black_box(&gap);
    call();
    black_box(&gap);
}

#[inline(never)]
fn paint(top: usize) {
    for address in (top - PAINTED_BYTES..top).step_by(WORD) {
        // SAFETY: unused part of this thread's own stack, which is twice as large.
        unsafe { ptr::with_exposed_provenance_mut::<u64>(address).write_volatile(PAINT) }
    }
}

#[inline(never)]
fn lowest_change(top: usize) -> usize {
    let kept = |&address: &usize| {
        // SAFETY: reads what `paint` has written, or a finished call has left.
        let word = unsafe { ptr::with_exposed_provenance::<u64>(address).read_volatile() };
        word == PAINT
    };
    let mut addresses = (top - PAINTED_BYTES..top).step_by(WORD);
    addresses.find(|address| !kept(address)).unwrap_or(top)
}
