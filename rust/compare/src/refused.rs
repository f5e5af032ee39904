//! How many calls, or records of files, were refused, by which number.

use std::collections::BTreeMap;
use std::fmt::{self, Display, Formatter};

#[derive(Default)]
pub struct Refused(BTreeMap<u64, u64>);

impl Refused {
    /// Of a list that has at each number how many.
    pub fn of(counts: &[u64]) -> Refused {
        let counts = (0..).zip(counts.iter().copied());
        Refused(counts.filter(|&(_, many)| many > 0).collect())
    }

    pub fn count(&mut self, number: u64) {
        self.add_some(number, 1);
    }

    pub fn add(&mut self, other: &Refused) {
        for (&number, &many) in &other.0 {
            self.add_some(number, many);
        }
    }

    fn add_some(&mut self, number: u64, many: u64) {
        *self.0.entry(number).or_default() += many;
    }
}

impl Display for Refused {
    fn fmt(&self, formatter: &mut Formatter) -> fmt::Result {
        let by = |(number, many)| format!("{number}: {many}");
        let by: Vec<String> = self.0.iter().map(by).collect();
        write!(formatter, "{}", by.join(", "))
    }
}
