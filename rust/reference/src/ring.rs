//! Refusal 10: the node that a loop is named by, and one loop through it.

use crate::record::Table;
use crate::refusal::Refusal;

/// What refuses a table that has a loop; none for one without.
pub fn looping(table: &Table) -> Option<Refusal> {
    let mut nodes = 0..table.count;
    let named = nodes.find(|&node| comes_back(table, node, table.all_nodes()))?;
    Some(Refusal::of_loop(named, round(table, named)))
}

/// Begins with all nodes and leaves out, from node 0 upward, each without
/// which the named node is still reached from itself.
fn round(table: &Table, named: usize) -> u64 {
    let mut left = table.all_nodes();
    for node in (0..table.count).filter(|&node| node != named) {
        let without = left & !(1 << node);
        if comes_back(table, named, without) {
            left = without;
        }
    }
    left
}

/// Whether a node of the set is reached from itself by edges inside the set:
/// goes to its parents there, to theirs, and to each node once.
fn comes_back(table: &Table, node: usize, set: u64) -> bool {
    let mut reached = 0;
    let mut ahead = table.parents[node] & set;
    while ahead != 0 {
        if ahead >> node & 1 == 1 {
            return true;
        }
        let parent = ahead.trailing_zeros() as usize;
        reached |= 1 << parent;
        ahead = (ahead | table.parents[parent] & set) & !reached;
    }
    false
}
