//! Deadlines and densities, written as plan words.

use crate::record::Table;
use crate::refusal::{Refusal, Rule};
use crate::row::Row;
use crate::timing::{Segment, Timing};

/// Words before the first segment: Q, segment count, node count.
pub const HEAD: usize = 3;

/// What the plan of 64 nodes in 64 segments takes.
pub const PLAN_WORDS: usize = HEAD + 6 * Table::LARGEST_COUNT;

/// Densities and the verdict count in millionths.
pub const MILLION: u64 = 1_000_000;

/// The number of words a plan took, and the row its task takes on a board.
pub struct Written {
    pub words: u64,
    pub row: Row,
}

/// Refusal 16.
pub fn lent_words(words: &mut [u64]) -> Result<&mut [u64; PLAN_WORDS], Refusal> {
    words.first_chunk_mut().ok_or(Rule::ShortPlan.into())
}

/// Writes all of the plan; cannot refuse any more.
pub fn fill(table: &Table, timing: &Timing, words: &mut [u64; PLAN_WORDS]) -> Written {
    let shares = Shares::of(table.period, timing);
    let segments = timing.segments().len();
    let (head, rest) = words.split_at_mut(HEAD);
    head.copy_from_slice(&[shares.over, segments as u64, table.count as u64]);
    let (segment_part, node_part) = rest.split_at_mut(3 * segments);
    let ends = write_segments(timing, &shares, segment_part);
    Written {
        words: (HEAD + 3 * segments + 3 * table.count) as u64,
        row: write_nodes(table, timing, shares.over, &ends, node_part),
    }
}

/// How many of the task's segments are heavy.
pub fn heavy_segments(period: u64, timing: &Timing) -> u64 {
    let shares = Shares::of(period, timing);
    let is_heavy = |segment: &&Segment| shares.is_heavy(segment);
    timing.segments().iter().filter(is_heavy).count() as u64
}

/// Where each segment's deadline ends, counted from 0 and over Q: entry j is
/// the sum of the deadlines before segment j.
type Ends = [u64; Table::LARGEST_COUNT + 1];

fn write_segments(timing: &Timing, shares: &Shares, words: &mut [u64]) -> Ends {
    let mut ends = [0; Table::LARGEST_COUNT + 1];
    let triples = words.chunks_exact_mut(3).zip(timing.segments());
    for (j, (triple, segment)) in triples.enumerate() {
        let deadline = shares.deadline(segment);
        triple.copy_from_slice(&[segment.threads, segment.length, deadline]);
        ends[j + 1] = ends[j] + deadline;
    }
    ends
}

/// A node's deadline is the sum over its run of segments, so the difference
/// of two ends. Its offset is the end before its run: a parent's offset plus
/// deadline is the end of the parent's run, and the latest parent's run goes up
/// to the node's. A join's run is empty: its density is 0 over 1, and it is left
/// out of the row's shortest.
fn write_nodes(table: &Table, timing: &Timing, over: u64, ends: &Ends, words: &mut [u64]) -> Row {
    let mut row = Row {
        id: table.id,
        nodes: table.count as u64,
        shortest: u64::MAX,
        over,
        ..Row::default()
    };
    for (node, triple) in words.chunks_exact_mut(3).take(table.count).enumerate() {
        let execution = table.executions[node];
        let offset = ends[usize::from(timing.first[node])];
        let deadline = ends[usize::from(timing.after[node])] - offset;
        let density = (execution * over * MILLION).div_ceil(deadline.max(1));
        triple.copy_from_slice(&[offset, deadline, density]);
        row.sum += density;
        row.largest = row.largest.max(density);
        row.longest = row.longest.max(execution);
        if execution > 0 {
            row.shortest = row.shortest.min(deadline);
        }
    }
    row
}

/// How the period is dealt out: Q, and by what a segment's weight is
/// multiplied to get its deadline's numerator.
struct Shares {
    over: u64,
    heavy: u64,
    light: u64,
    /// 2T - P, at least 1 since the path fits the period.
    span: u64,
    work: u64,
}

impl Shares {
    fn of(period: u64, timing: &Timing) -> Shares {
        let mut shares = Shares {
            over: 0,
            heavy: period,
            light: period,
            span: 2 * period - timing.path,
            work: timing.work,
        };
        let (light_length, heavy_work) = shares.kinds(timing.segments());
        if light_length == 0 {
            shares.over = timing.work;
        } else if heavy_work == 0 {
            shares.over = timing.path;
        } else {
            shares.over = 2 * heavy_work;
            shares.heavy = 2 * period - light_length;
            shares.light = heavy_work;
        }
        shares
    }

    /// L and H. Lengths are above 0, so a sum of 0 means none of that kind.
    fn kinds(&self, segments: &[Segment]) -> (u64, u64) {
        let mut light_length = 0;
        let mut heavy_work = 0;
        for segment in segments {
            if self.is_heavy(segment) {
                heavy_work += segment.threads * segment.length;
            } else {
                light_length += segment.length;
            }
        }
        (light_length, heavy_work)
    }

    fn is_heavy(&self, segment: &Segment) -> bool {
        segment.threads * self.span > self.work
    }

    fn deadline(&self, segment: &Segment) -> u64 {
        if self.is_heavy(segment) {
            self.heavy * segment.threads * segment.length
        } else {
            self.light * segment.length
        }
    }
}
