//! What the reader of graphs is given: a text with an id and a period, and bytes
//! to write into.

#[derive(Clone, PartialEq)]
pub struct Graph {
    pub text: Vec<u8>,
    pub id: u64,
    pub period: u64,
    /// The number of bytes lent.
    pub lent: u64,
}
