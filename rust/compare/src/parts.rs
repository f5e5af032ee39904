//! A file taken apart into records, whether it is a good one or not: for what has
//! to be counted in it, and for shrinking it.

use crate::draft::read_number;
use ffi::task::file;

#[derive(Clone)]
pub struct Parts {
    pub records: Vec<Vec<u8>>,
    /// From the first length on that is damaged, or whose record runs past the
    /// file's end.
    pub tail: Vec<u8>,
}

impl Parts {
    pub fn of(file: &[u8]) -> Parts {
        let mut records = Vec::new();
        let mut rest = file;
        while let Some((record, after)) = first(rest) {
            records.push(record.to_vec());
            rest = after;
        }
        Parts {
            records,
            tail: rest.to_vec(),
        }
    }

    pub fn file(&self) -> Vec<u8> {
        [file(&self.records), self.tail.clone()].concat()
    }
}

/// The first record, and what comes after it.
fn first(file: &[u8]) -> Option<(&[u8], &[u8])> {
    let mut rest = file;
    let length = read_number(&mut rest).filter(|length| length.padding == 0)?;
    rest.split_at_checked(length.value as usize)
}
