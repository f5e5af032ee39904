//! A board's row, and what makes one sound.

use crate::record::Table;

const LARGEST_DENSITY: u64 = 2_000_000;

/// The longest that is written, with the largest cost.
const LONGEST_EXECUTION: u64 = 65_790;
const LARGEST_OVER: u64 = 8_421_120;

/// A standing task; all zeros when free.
#[repr(C)]
#[derive(Clone, Copy, Debug, Default, PartialEq, Eq)]
pub struct Row {
    pub id: u64,
    pub nodes: u64,
    pub sum: u64,
    pub largest: u64,
    /// The longest execution, cost included.
    pub longest: u64,
    /// The smallest deadline numerator, joins left out.
    pub shortest: u64,
    /// Q, which that is over.
    pub over: u64,
}

impl Row {
    pub fn is_free(&self) -> bool {
        *self == Row::default()
    }

    pub fn is_sound(&self) -> bool {
        self.is_free()
            || (1..=Table::LARGEST_ID).contains(&self.id)
                && self.has_sound_densities()
                && self.has_sound_steps()
    }

    /// The limits on nodes and largest come first: they keep the product small.
    fn has_sound_densities(&self) -> bool {
        (1..=Table::LARGEST_COUNT as u64).contains(&self.nodes)
            && (1..=LARGEST_DENSITY).contains(&self.largest)
            && self.largest <= self.sum
            && self.sum <= self.nodes * self.largest
    }

    /// The limit on Q comes first and that on the numerator next: they keep
    /// the products small.
    fn has_sound_steps(&self) -> bool {
        (1..=LONGEST_EXECUTION).contains(&self.longest)
            && (1..=LARGEST_OVER).contains(&self.over)
            && self.shortest <= Table::LARGEST_PERIOD * self.over
            && self.over <= 2 * self.shortest
    }
}
