//! What request m asks of the loop that refusal 10 shows, and that no other
//! member can be left out, looked at in the library's answers by themselves.

use crate::case::Call;
use crate::draft::{Draft, Node};
use reference::Answer;

/// A rule in words, and whether it holds.
type Rule = (&'static str, fn(&Round) -> bool);

const RULES: [Rule; 4] = [
    ("the smallest node on a loop is named", Round::is_smallest),
    ("the named node is a member", Round::has_named),
    ("every member leads there and back", Round::is_joined),
    ("no other member can be left out", Round::is_least),
];

/// The first rule that the answer breaks.
pub fn broken(call: &Call, answer: &Answer) -> Option<&'static str> {
    if answer.refusal != 10 {
        return (answer.ring != 0).then_some("only refusal 10 shows a loop");
    }
    let round = Round {
        nodes: call.record().map_or(vec![], nodes),
        named: answer.place,
        ring: answer.ring,
    };
    let broken = RULES.into_iter().find(|(_, holds)| !holds(&round));
    broken.map(|(rule, _)| rule)
}

fn nodes(record: &[u8]) -> Vec<Node> {
    Draft::read(record).map_or(vec![], |draft| draft.nodes)
}

/// A task's nodes, the one that is named, and the set shown with it.
struct Round {
    nodes: Vec<Node>,
    named: u64,
    ring: u64,
}

impl Round {
    const ALL: u64 = u64::MAX;

    fn is_smallest(&self) -> bool {
        let smallest = members(Round::ALL).find(|&node| self.leads(node, node, Round::ALL));
        smallest == Some(self.named)
    }

    fn has_named(&self) -> bool {
        has(self.ring, self.named)
    }

    /// Nothing leads from a member that isn't a node of the task.
    fn is_joined(&self) -> bool {
        let there = |member| self.leads(member, self.named, self.ring);
        let back = |member| self.leads(self.named, member, self.ring);
        members(self.ring).all(|member| there(member) && back(member))
    }

    fn is_least(&self) -> bool {
        let mut others = members(self.ring).filter(|&member| member != self.named);
        others.all(|other| !self.leads(self.named, self.named, self.ring & !(1 << other)))
    }

    /// Whether one or more edges inside the set lead from one of its nodes to
    /// another.
    fn leads(&self, from: u64, to: u64, set: u64) -> bool {
        let mut met = [false; 64];
        let mut ahead = vec![from];
        while let Some(node) = ahead.pop() {
            for parent in self.parents(node) {
                if has(set, parent) && !met[parent as usize] {
                    met[parent as usize] = true;
                    ahead.push(parent);
                }
            }
        }
        met[to as usize]
    }

    fn parents(&self, node: u64) -> impl Iterator<Item = u64> + '_ {
        let node = self.nodes.get(node as usize).into_iter();
        node.flat_map(|node| node.parents.iter().map(|parent| parent.value))
    }
}

fn members(set: u64) -> impl Iterator<Item = u64> {
    (0..64).filter(move |&node| has(set, node))
}

fn has(set: u64, node: u64) -> bool {
    node < 64 && set >> node & 1 == 1
}
