//! Boards whose verdict for steps that run to their end turns at a number of
//! cores.

use crate::boards::{tight_in, LARGEST_OVER, LONGEST_EXECUTION, MILLION};
use crate::random::Random;
use crate::tasks::LARGEST_PERIOD;
use reference::Row;

/// The sum is at most one off from S + (m - 1) x M + m x r = m x 1,000,000. The
/// longest execution and the shortest deadline may stand in different rows.
pub fn tight_to_end(random: &mut Random, cores: u64) -> Vec<Row> {
    let extreme = Steps::random(random);
    let mut board = tight_in(random, cores, MILLION - extreme.overhead());
    let mut standing: Vec<&mut Row> = board.iter_mut().filter(|row| row.id != 0).collect();
    for row in &mut standing {
        let any_longest = random.between(1, extreme.longest);
        row.longest = random.pick(&[1, extreme.longest, any_longest]);
        (row.shortest, row.over) = extreme.no_shorter(random);
    }
    let at = random.index(standing.len());
    standing[at].longest = extreme.longest;
    let at = random.index(standing.len());
    (standing[at].shortest, standing[at].over) = (extreme.shortest, extreme.over);
    board
}

/// The longest execution and the shortest deadline of a board.
struct Steps {
    longest: u64,
    shortest: u64,
    over: u64,
}

impl Steps {
    /// With r below a million. Before it is rounded up it is often a whole
    /// number, or just above one, where a slightly longer deadline has a lower r.
    fn random(random: &mut Random) -> Steps {
        let any_longest = random.between(1, LONGEST_EXECUTION);
        let longest = random.pick(&[1, LONGEST_EXECUTION, any_longest, any_longest % 100 + 1]);
        let any_over = random.between(1, LARGEST_OVER);
        let over = random.pick(&[1, LARGEST_OVER, any_over, any_over % 100 + 1]);
        let above = longest * over * MILLION;
        let any = random.between(1, MILLION - 1);
        let least = above.div_ceil(random.pick(&[any, any, 1, MILLION / 5, MILLION / 2]));
        let any = random.between(least, 2 * least);
        let shortest = random.pick(&[least, least - 1, any]);
        Steps {
            longest,
            shortest: shortest.clamp(above.div_ceil(MILLION - 1), LARGEST_PERIOD * over),
            over,
        }
    }

    /// r.
    fn overhead(&self) -> u64 {
        (self.longest * self.over * MILLION).div_ceil(self.shortest)
    }

    /// A deadline's numerator and Q: often the same under another Q, or longer
    /// by as little as can be.
    fn no_shorter(&self, random: &mut Random) -> (u64, u64) {
        let times = random.between(1, LARGEST_OVER / self.over);
        let any = random.between(1, LARGEST_OVER);
        let over = random.pick(&[times * self.over, 1, LARGEST_OVER, any, any % 100 + 1]);
        let most = LARGEST_PERIOD * over;
        let least = u128::from(self.shortest) * u128::from(over);
        let least = least.div_ceil(u128::from(self.over)) as u64;
        let any = random.between(least, most);
        let shortest = random.pick(&[least, most.min(least + 1), any]);
        (shortest, over)
    }
}
