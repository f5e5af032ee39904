//! Sound boards, boards at a limit, and every way to spoil one.

use crate::random::Random;
use crate::tasks::LARGEST_PERIOD;
use reference::Row;

pub const MILLION: u64 = 1_000_000;
pub const LONGEST_EXECUTION: u64 = 65_790;
pub const LARGEST_OVER: u64 = 8_421_120;

pub fn free_board() -> Vec<Row> {
    vec![Row::default(); 16]
}

/// Any sound board; ids come from a small range, so that calls meet them.
pub fn random_board(random: &mut Random) -> Vec<Row> {
    let mut ids: Vec<u64> = (1..=24).collect();
    random.shuffle(&mut ids);
    if random.one_in(4) {
        ids[0] = 65_535;
    }
    let free_in_four = random.below(5);
    let kind = random.pick(&[random_row, calm_row]);
    let mut row = |&id: &u64| match random.below(4) < free_in_four {
        true => Row::default(),
        false => kind(random, id),
    };
    ids[..16].iter().map(&mut row).collect()
}

/// A sound row, often at its limits.
fn random_row(random: &mut Random, id: u64) -> Row {
    let any_nodes = random.between(1, 64);
    let nodes = random.pick(&[1, 64, any_nodes]);
    let any_largest = random.between(1, 2_000_000);
    let largest = random.pick(&[1, 2_000_000, any_largest, any_largest / 20 + 1]);
    let any_sum = random.between(largest, nodes * largest);
    Row {
        id,
        nodes,
        sum: random.pick(&[largest, nodes * largest, any_sum, any_sum]),
        largest,
        ..random_steps(random)
    }
}

/// The figures of a row's steps alone, often at their limits.
fn random_steps(random: &mut Random) -> Row {
    let any_longest = random.between(1, LONGEST_EXECUTION);
    let any_over = random.between(1, LARGEST_OVER);
    let over = random.pick(&[1, LARGEST_OVER, any_over, any_over % 100 + 1]);
    let (least, most) = (over.div_ceil(2), LARGEST_PERIOD * over);
    let any_shortest = random.between(least, most);
    Row {
        longest: random.pick(&[1, LONGEST_EXECUTION, any_longest]),
        shortest: random.pick(&[least, most, any_shortest]),
        over,
        ..Row::default()
    }
}

/// A sound row with time to spare: a few cores bear sixteen of these, even if
/// their steps run to the end.
fn calm_row(random: &mut Random, id: u64) -> Row {
    let nodes = random.between(1, 64);
    let largest = random.between(1, 20_000);
    let over = random.between(1, LARGEST_OVER);
    Row {
        id,
        nodes,
        sum: random.between(largest, nodes * largest),
        largest,
        longest: random.between(1, 900),
        shortest: random.between(1_000 * over, 100_000 * over),
        over,
    }
}

/// A board whose verdict turns at that number of cores: the sum is at most
/// one off from S + (m - 1) x M = m x 1,000,000.
pub fn tight_board(random: &mut Random, cores: u64) -> Vec<Row> {
    tight_in(random, cores, MILLION)
}

/// The same, where each core has only so much room.
pub fn tight_in(random: &mut Random, cores: u64, room: u64) -> Vec<Row> {
    // With this much at least, 16 rows of 64 nodes can hold the sum.
    let largest = random.between(room.div_ceil(16), room);
    let sum = cores * room - (cores - 1) * largest;
    let sum = random.between(sum - 1, sum + 1).max(largest);
    loaded_board(random, 16, sum, largest)
}

/// A board with that sum and that largest density, in up to so many rows. The
/// sum is from the largest to 64 times as much for each row.
pub fn loaded_board(random: &mut Random, rows: u64, sum: u64, largest: u64) -> Vec<Row> {
    let mut left = sum;
    let mut board = free_board();
    for (at, row) in (0..rows).zip(&mut board) {
        let most = left.min(64 * largest);
        let later = (rows - 1 - at) * 64 * largest;
        let wanted = match at {
            0 => largest,
            _ => random.pick(&[0, most]),
        };
        // What the later rows can't hold has to stand here.
        let least = wanted.max(left.saturating_sub(later));
        let share = random.between(least, most);
        if share > 0 {
            *row = Row {
                id: at + 1,
                nodes: 64,
                sum: share,
                largest: share.min(largest),
                ..random_steps(random)
            };
        }
        left -= share;
    }
    random.shuffle(&mut board);
    board
}

/// Changes to one row. Most make the board unsound, some stop just short.
pub const SPOILS: [fn(&mut Row); 59] = [
    |row| row.id = 0,
    |row| row.id = 1,
    |row| row.id = 65_535,
    |row| row.id = 65_536,
    |row| row.id = u64::MAX,
    |row| row.id += 1 << 32,
    |row| row.nodes = 0,
    |row| row.nodes = 64,
    |row| row.nodes = 65,
    |row| row.nodes = 1 << 32,
    |row| row.nodes = u64::MAX,
    |row| row.largest = 0,
    |row| row.largest = u64::MAX,
    |row| row.largest = row.sum + 1,
    |row| row.largest = row.sum,
    |row| row.sum = 0,
    |row| row.sum = row.largest,
    |row| row.sum = row.largest.max(1) - 1,
    |row| row.sum = row.nodes * row.largest,
    |row| row.sum = row.nodes * row.largest + 1,
    |row| row.sum = u64::MAX,
    |row| (row.nodes, row.sum, row.largest) = (1, 2_000_000, 2_000_000),
    |row| (row.nodes, row.sum, row.largest) = (2, 2_000_001, 2_000_001),
    |row| (row.nodes, row.sum, row.largest) = (64, 128_000_000, 2_000_000),
    |row| (row.nodes, row.sum, row.largest) = (64, 128_000_001, 2_000_000),
    |row| (row.nodes, row.sum, row.largest) = (1 << 33, 5, 1 << 33),
    |row| row.id ^= 77,
    |row| row.nodes ^= 77,
    |row| row.sum ^= 77,
    |row| row.largest ^= 77,
    |row| row.longest = 0,
    |row| row.longest = 1,
    |row| row.longest = LONGEST_EXECUTION,
    |row| row.longest = LONGEST_EXECUTION + 1,
    |row| row.longest = u64::MAX,
    |row| row.longest += 1 << 32,
    |row| row.over = 0,
    |row| row.over = u64::MAX,
    |row| row.over += 1 << 32,
    |row| row.over = INVERSE,
    |row| (row.shortest, row.over) = (0, 0),
    |row| (row.shortest, row.over) = (1, 1),
    |row| (row.shortest, row.over) = (1, 2),
    |row| (row.shortest, row.over) = (1, 3),
    |row| (row.shortest, row.over) = (LARGEST_OVER, LARGEST_OVER),
    |row| (row.shortest, row.over) = (LARGEST_OVER, LARGEST_OVER + 1),
    |row| row.shortest = 0,
    |row| row.shortest = row.over.div_ceil(2),
    |row| row.shortest = row.over.div_ceil(2).max(1) - 1,
    |row| row.shortest = LARGEST_PERIOD * row.over,
    |row| row.shortest = LARGEST_PERIOD * row.over + 1,
    |row| row.shortest = u64::MAX,
    |row| row.shortest = 1 << 63,
    |row| row.shortest += 1 << 63,
    |row| (row.longest, row.shortest, row.over) = (1, 1, 1),
    |row| (row.longest, row.shortest, row.over) = (u64::MAX, u64::MAX, u64::MAX),
    |row| row.longest ^= 77,
    |row| row.shortest ^= 77,
    |row| row.over ^= 77,
];

/// 16,777,215 times this leaves 1 in 64 bits.
const INVERSE: u64 = 0xFFFE_FFFF_FEFF_FFFF;
