//! The proved library's C interface as thirteen ordinary calls, so that it can
//! stand wherever the reference can; and the tasks both programs feed to it.

pub mod task;

use reference::{Answer, Counts, Mending, Row};

/// Where the library lies that is linked in.
pub const LIBRARY: &str = env!("PLANNER_LIBRARY");

extern "C" {
    fn planner_plan(
        record: *const u8,
        bytes: usize,
        words: *mut u64,
        lent: usize,
        cost: u64,
    ) -> Answer;
    fn planner_note(
        record: *const u8,
        bytes: usize,
        words: *mut u64,
        lent: usize,
        board: *mut Row,
        rows: usize,
        cost: u64,
    ) -> Answer;
    fn planner_admit(
        record: *const u8,
        bytes: usize,
        words: *mut u64,
        lent: usize,
        board: *mut Row,
        rows: usize,
        cores: u64,
        cost: u64,
    ) -> Answer;
    fn planner_withdraw(board: *mut Row, rows: usize, id: u64) -> Answer;
    fn planner_ask(board: *const Row, rows: usize, cores: u64) -> Answer;
    fn planner_ask_to_end(board: *const Row, rows: usize, cores: u64) -> Answer;
    fn planner_write_record(
        executions: *const u64,
        times: usize,
        parents: *const u64,
        sets: usize,
        bytes: *mut u8,
        lent: usize,
        edition: u64,
        id: u64,
        period: u64,
    ) -> Answer;
    fn planner_mend(given: *const u8, length: usize, bytes: *mut u8, lent: usize) -> Mending;
    fn planner_read_graph(
        text: *const u8,
        length: usize,
        bytes: *mut u8,
        lent: usize,
        id: u64,
        period: u64,
    ) -> Answer;
    fn planner_building(file: *const u8, length: usize, cost: u64) -> Counts;
    fn planner_read_plan(plan: *const u8, length: usize, words: *mut u64, lent: usize) -> Answer;
    fn planner_write_plan(
        words: *const u64,
        given: usize,
        bytes: *mut u8,
        lent: usize,
        id: u64,
    ) -> Answer;
    fn planner_judge(
        record: *const u8,
        bytes: usize,
        plan: *const u8,
        length: usize,
        words: *mut u64,
        lent: usize,
        cost: u64,
    ) -> Answer;
}

pub fn plan(record: &[u8], words: &mut [u64], cost: u64) -> Answer {
    let (bytes, lent) = (record.len(), words.len());
    // SAFETY: each pointer goes with its own slice's length.
    unsafe { planner_plan(record.as_ptr(), bytes, words.as_mut_ptr(), lent, cost) }
}

pub fn note(record: &[u8], words: &mut [u64], board: &mut [Row], cost: u64) -> Answer {
    let (bytes, lent, rows) = (record.len(), words.len(), board.len());
    let (record, words, board) = (record.as_ptr(), words.as_mut_ptr(), board.as_mut_ptr());
    // SAFETY: each pointer goes with its own slice's length; no two overlap.
    unsafe { planner_note(record, bytes, words, lent, board, rows, cost) }
}

pub fn admit(record: &[u8], words: &mut [u64], board: &mut [Row], cores: u64, cost: u64) -> Answer {
    let (bytes, lent, rows) = (record.len(), words.len(), board.len());
    let (record, words, board) = (record.as_ptr(), words.as_mut_ptr(), board.as_mut_ptr());
    // SAFETY: each pointer goes with its own slice's length; no two overlap.
    unsafe { planner_admit(record, bytes, words, lent, board, rows, cores, cost) }
}

pub fn withdraw(board: &mut [Row], id: u64) -> Answer {
    // SAFETY: pointer and length are one slice's.
    unsafe { planner_withdraw(board.as_mut_ptr(), board.len(), id) }
}

pub fn ask(board: &[Row], cores: u64) -> Answer {
    // SAFETY: pointer and length are one slice's, which is only read.
    unsafe { planner_ask(board.as_ptr(), board.len(), cores) }
}

pub fn ask_to_end(board: &[Row], cores: u64) -> Answer {
    // SAFETY: pointer and length are one slice's, which is only read.
    unsafe { planner_ask_to_end(board.as_ptr(), board.len(), cores) }
}

pub fn write_record(
    executions: &[u64],
    parents: &[u64],
    bytes: &mut [u8],
    edition: u64,
    id: u64,
    period: u64,
) -> Answer {
    let (times, sets, lent) = (executions.len(), parents.len(), bytes.len());
    let (executions, parents) = (executions.as_ptr(), parents.as_ptr());
    let bytes = bytes.as_mut_ptr();
    // SAFETY: each pointer goes with its own slice's length; the bytes overlap
    // neither list, and these are only read.
    unsafe {
        planner_write_record(
            executions, times, parents, sets, bytes, lent, edition, id, period,
        )
    }
}

pub fn mend(given: &[u8], bytes: &mut [u8]) -> Mending {
    let (length, lent) = (given.len(), bytes.len());
    // SAFETY: each pointer goes with its own slice's length; the two do not
    // overlap.
    unsafe { planner_mend(given.as_ptr(), length, bytes.as_mut_ptr(), lent) }
}

pub fn read_graph(text: &[u8], bytes: &mut [u8], id: u64, period: u64) -> Answer {
    let (length, lent) = (text.len(), bytes.len());
    let (text, bytes) = (text.as_ptr(), bytes.as_mut_ptr());
    // SAFETY: each pointer goes with its own slice's length; the two do not
    // overlap.
    unsafe { planner_read_graph(text, length, bytes, lent, id, period) }
}

pub fn building(file: &[u8], cost: u64) -> Counts {
    // SAFETY: pointer and length are one slice's, which is only read.
    unsafe { planner_building(file.as_ptr(), file.len(), cost) }
}

pub fn read_plan(plan: &[u8], words: &mut [u64]) -> Answer {
    let (length, lent) = (plan.len(), words.len());
    // SAFETY: each pointer goes with its own slice's length; the two do not
    // overlap.
    unsafe { planner_read_plan(plan.as_ptr(), length, words.as_mut_ptr(), lent) }
}

pub fn write_plan(words: &[u64], bytes: &mut [u8], id: u64) -> Answer {
    let (given, lent) = (words.len(), bytes.len());
    // SAFETY: each pointer goes with its own slice's length; the bytes do not
    // overlap the words, which are only read.
    unsafe { planner_write_plan(words.as_ptr(), given, bytes.as_mut_ptr(), lent, id) }
}

pub fn judge(record: &[u8], plan: &[u8], words: &mut [u64], cost: u64) -> Answer {
    let (bytes, length, lent) = (record.len(), plan.len(), words.len());
    let (record, plan, words) = (record.as_ptr(), plan.as_ptr(), words.as_mut_ptr());
    // SAFETY: each pointer goes with its own slice's length; no two overlap.
    unsafe { planner_judge(record, bytes, plan, length, words, lent, cost) }
}
