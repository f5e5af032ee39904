//! Writing a record: its bytes, its way back, and every refusal at its place.

use reference::{plan, read, write_record, Answer, Table, PLAN_WORDS};

const OLD: u8 = 0xA5;

/// Edition, id, period, node count; 64 times execution, parent count, parents.
const LONGEST: usize = 1 + 3 + 4 + 1 + 64 * (3 + 1 + 64);

/// What is to be written.
#[derive(Clone, Debug)]
struct Lists {
    edition: u64,
    id: u64,
    period: u64,
    executions: Vec<u64>,
    parents: Vec<u64>,
}

impl Lists {
    /// Document 01's listing: three nodes, node 2 waits for node 1.
    fn listing() -> Lists {
        Lists {
            edition: 1,
            id: 3,
            period: 6,
            executions: vec![3, 1, 1],
            parents: vec![0, 0, 0b10],
        }
    }

    /// Each node of 64 waits for all.
    fn longest() -> Lists {
        Lists {
            edition: 1,
            id: 65_535,
            period: 16_777_215,
            executions: vec![65_535; 64],
            parents: vec![u64::MAX; 64],
        }
    }

    /// The answer and the bytes written; the others have to keep their content.
    fn write(&self, lent: usize) -> (Answer, Vec<u8>) {
        let mut bytes = vec![OLD; lent];
        let answer = write_record(
            &self.executions,
            &self.parents,
            &mut bytes,
            self.edition,
            self.id,
            self.period,
        );
        let rest = bytes.split_off(answer.value as usize);
        assert!(rest.iter().all(|&byte| byte == OLD));
        (answer, bytes)
    }

    fn written(&self) -> Vec<u8> {
        let (answer, bytes) = self.write(LONGEST + 5);
        assert_eq!(answer, yes(bytes.len() as u64));
        bytes
    }

    /// The same whether there is room or not.
    fn refusal(&self) -> Answer {
        let (answer, _) = self.write(LONGEST);
        assert_ne!(answer.refusal, 0);
        assert_eq!(self.write(0).0, answer);
        answer
    }

    /// Its numbers in the record's order, whatever they are.
    fn numbers(&self) -> Vec<u64> {
        let count = self.executions.len() as u64;
        let mut numbers = vec![self.edition, self.id, self.period, count];
        for (execution, set) in self.executions.iter().zip(&self.parents) {
            let parents: Vec<u64> = (0..64).filter(|node| set >> node & 1 == 1).collect();
            numbers.extend([*execution, parents.len() as u64]);
            numbers.extend(parents);
        }
        numbers
    }

    /// The table that these lists are.
    fn table(&self) -> Table {
        let count = self.executions.len();
        let mut table = Table {
            edition: self.edition,
            id: self.id,
            period: self.period,
            count,
            executions: [0; 64],
            parents: [0; 64],
        };
        table.executions[..count].copy_from_slice(&self.executions);
        table.parents[..count].copy_from_slice(&self.parents);
        table
    }

    fn of(table: &Table) -> Lists {
        Lists {
            edition: table.edition,
            id: table.id,
            period: table.period,
            executions: table.executions[..table.count].to_vec(),
            parents: table.parents[..table.count].to_vec(),
        }
    }
}

fn yes(value: u64) -> Answer {
    Answer {
        value,
        ..Answer::default()
    }
}

fn refused(refusal: u64, place: u64) -> Answer {
    Answer {
        refusal,
        place,
        ..Answer::default()
    }
}

/// Numbers one after the other, each in its shortest form.
fn encoded(numbers: &[u64]) -> Vec<u8> {
    let mut bytes = Vec::new();
    for &number in numbers {
        let groups = (64 - number.leading_zeros()).div_ceil(7).max(1);
        let group = |at: u32| (number >> (7 * at) & 0x7F) as u8;
        bytes.extend((0..groups - 1).map(|at| group(at) | 0x80));
        bytes.push(group(groups - 1));
    }
    bytes
}

#[test]
fn the_listing() {
    let listing = [1, 3, 6, 3, 3, 0, 1, 0, 1, 1, 1];
    assert_eq!(Lists::listing().written(), listing);
}

#[test]
fn numbers_in_their_shortest_form() {
    let mut lists = Lists::listing();
    (lists.id, lists.period) = (128, 16_777_215);
    lists.executions = vec![127, 16_383, 16_384];
    let head = [1, 0x80, 1, 0xFF, 0xFF, 0xFF, 7, 3];
    let nodes = [0x7F, 0, 0xFF, 0x7F, 0, 0x80, 0x80, 1, 1, 1];
    assert_eq!(lists.written(), [&head[..], &nodes].concat());
}

#[test]
fn parents_stand_ascending() {
    let mut lists = Lists::listing();
    lists.parents = vec![0b110, 0b111, 0b101];
    let nodes = [3, 2, 1, 2, 1, 3, 0, 1, 2, 1, 2, 0, 2];
    assert_eq!(lists.written()[4..], nodes);
}

#[test]
fn records_that_are_written_again() {
    let worked: [&[u8]; 8] = [
        &[1, 7, 5, 1, 5, 0],
        &[1, 7, 3, 3, 1, 0, 1, 1, 0, 1, 1, 1],
        &[1, 9, 4, 4, 2, 0, 1, 1, 0, 1, 1, 0, 1, 1, 0],
        &[1, 7, 5, 1, 5, 1, 0],
        &[1, 7, 9, 2, 1, 1, 1, 1, 1, 0],
        &[1, 7, 0xFF, 0xFF, 0xFF, 0x07, 1, 5, 0],
        &[2, 7, 9, 2, 0, 0, 3, 1, 0],
        &[2, 9, 10, 4, 2, 0, 4, 0, 0, 2, 0, 1, 1, 1, 2],
    ];
    for record in worked {
        let table = read(record).unwrap();
        assert_eq!(Lists::of(&table).written(), record);
    }
}

#[test]
fn limits_of_the_head() {
    let mut lists = Lists::listing();
    for (id, bytes) in [(1, 1), (127, 1), (128, 2), (16_384, 3), (65_535, 3)] {
        lists.id = id;
        assert_eq!(lists.written().len(), 10 + bytes);
    }
    lists.id = 1;
    for (period, bytes) in [(1, 1), (2_097_151, 3), (2_097_152, 4), (16_777_215, 4)] {
        lists.period = period;
        assert_eq!(lists.written().len(), 10 + bytes);
    }
}

#[test]
fn the_longest_record() {
    let longest = Lists::longest();
    let record = longest.written();
    assert_eq!(record.len(), LONGEST);
    assert_eq!(read(&record).unwrap(), longest.table());
    assert_eq!(longest.write(LONGEST), (yes(LONGEST as u64), record));
    let short = LONGEST - 1;
    assert_eq!(longest.write(short).0, refused(19, short as u64));
}

#[test]
fn every_count_with_full_sets() {
    for count in 1..=64 {
        let mut lists = Lists::longest();
        lists.executions.truncate(count);
        lists.parents = vec![u64::MAX >> (64 - count); count];
        let record = lists.written();
        assert_eq!(record.len(), 9 + count * (4 + count));
        assert_eq!(read(&record).unwrap(), lists.table());
    }
}

#[test]
fn lists_that_differ_come_first() {
    let mut lists = Lists::listing();
    lists.parents.pop();
    assert_eq!(lists.refusal(), refused(19, 0));
    // Nothing else is right either.
    (lists.edition, lists.id, lists.period) = (0, 0, 0);
    lists.executions = vec![0; 65];
    assert_eq!(lists.refusal(), refused(19, 0));
    lists.executions.clear();
    assert_eq!(lists.refusal(), refused(19, 0));
    lists.parents.clear();
    assert_eq!(lists.refusal(), refused(3, 0));
}

#[test]
fn editions() {
    let mut lists = Lists::listing();
    for edition in [0, 3, 128, 1 << 32, 1 << 32 | 1, u64::MAX] {
        lists.edition = edition;
        assert_eq!(lists.refusal(), refused(3, 0));
    }
    lists.edition = 2;
    assert_eq!(lists.written()[0], 2);
}

#[test]
fn ids() {
    let mut lists = Lists::listing();
    for id in [0, 65_536, 1 << 28, 1 << 32 | 3, u64::MAX] {
        lists.id = id;
        assert_eq!(lists.refusal(), refused(4, 1));
    }
}

#[test]
fn periods() {
    let mut lists = Lists::listing();
    for (id, place) in [(3, 2), (128, 3), (65_535, 4)] {
        lists.id = id;
        for period in [0, 16_777_216, 1 << 28, 1 << 32 | 6, u64::MAX] {
            lists.period = period;
            assert_eq!(lists.refusal(), refused(5, place));
        }
    }
}

#[test]
fn counts() {
    for count in [0, 65, 66, 128, 300] {
        let mut lists = Lists::listing();
        // 7 and 8 come after 6, whatever the lists hold.
        lists.executions = vec![u64::MAX; count];
        lists.parents = vec![u64::MAX; count];
        assert_eq!(lists.refusal(), refused(6, 3));
        (lists.id, lists.period) = (65_535, 16_777_215);
        assert_eq!(lists.refusal(), refused(6, 8));
    }
}

#[test]
fn executions() {
    for (node, place) in [(0, 4), (1, 6), (2, 8)] {
        for execution in [0, 65_536, 1 << 28, 1 << 32 | 1, u64::MAX] {
            let mut lists = Lists::listing();
            lists.executions[node] = execution;
            assert_eq!(lists.refusal(), refused(7, place));
            // Only 0 is allowed by edition 2.
            lists.edition = 2;
            match execution {
                0 => assert_eq!(lists.written()[place as usize], 0),
                _ => assert_eq!(lists.refusal(), refused(7, place)),
            }
        }
    }
    // What stands before takes three bytes, and three parents.
    let mut lists = Lists::listing();
    lists.executions = vec![65_535, 0, 0];
    lists.parents = vec![0b111, 0, 0];
    assert_eq!(lists.refusal(), refused(7, 11));
}

#[test]
fn parents() {
    let set = |node: usize, set| {
        let mut lists = Lists::listing();
        lists.parents[node] = set;
        lists.refusal()
    };
    // Four or more of three nodes: at the count.
    assert_eq!(set(0, 0b1111), refused(8, 5));
    assert_eq!(set(1, u64::MAX), refused(8, 7));
    assert_eq!(set(2, u64::MAX << 3), refused(8, 9));
    // Up to three: at the first that is no node.
    assert_eq!(set(0, 0b1000), refused(8, 6));
    assert_eq!(set(0, 0b1011), refused(8, 8));
    assert_eq!(set(1, 1 << 63 | 1), refused(8, 9));
    assert_eq!(set(2, 0b111 << 61), refused(8, 10));
    assert_eq!(set(2, 0b11001), refused(8, 11));
}

#[test]
fn the_last_parent_of_63_nodes() {
    let mut lists = Lists::longest();
    lists.executions.truncate(63);
    lists.parents = vec![u64::MAX >> 1; 63];
    lists.written();
    let last = 9 + 62 * (4 + 63) + 3;
    lists.parents[62] = u64::MAX;
    assert_eq!(lists.refusal(), refused(8, last));
    lists.parents[62] = u64::MAX << 1;
    assert_eq!(lists.refusal(), refused(8, last + 1 + 62));
}

#[test]
fn the_order_of_21() {
    let mut lists = Lists::listing();
    lists.executions = vec![0; 3];
    assert_eq!(lists.refusal(), refused(7, 4));
    lists.edition = 2;
    assert_eq!(lists.refusal(), refused(21, 0));
    lists.parents[2] = 0b1000;
    assert_eq!(lists.refusal(), refused(8, 10));
    for count in 1..=64 {
        lists.executions = vec![0; count];
        lists.parents = vec![1; count];
        assert_eq!(lists.refusal(), refused(21, 0));
        lists.executions[count - 1] = 1;
        assert_eq!(lists.written().len(), 4 + 3 * count);
    }
}

#[test]
fn a_short_buffer_comes_last() {
    let listing = Lists::listing();
    for lent in 0..11 {
        assert_eq!(listing.write(lent).0, refused(19, lent as u64));
    }
    for lent in 11..15 {
        assert_eq!(listing.write(lent).0, yes(11));
    }
}

#[test]
fn loops_and_long_paths_are_written() {
    let mut lists = Lists::listing();
    lists.parents[0] = 1;
    assert_eq!(plan(&lists.written(), &mut [0; PLAN_WORDS], 0).refusal, 10);
    lists.parents[0] = 0;
    lists.period = 1;
    assert_eq!(plan(&lists.written(), &mut [0; PLAN_WORDS], 0).refusal, 11);
}

/// A small generator; the same numbers on every run.
struct Random(u64);

impl Random {
    fn number(&mut self) -> u64 {
        self.0 ^= self.0 << 13;
        self.0 ^= self.0 >> 7;
        self.0 ^= self.0 << 17;
        self.0
    }

    fn below(&mut self, limit: u64) -> u64 {
        (self.number() >> 16) % limit
    }

    /// From 0 to the limit, of any length in bits.
    fn up_to(&mut self, limit: u64) -> u64 {
        let bits = self.below(64 - u64::from(limit.leading_zeros()));
        self.below(2 << bits).min(limit)
    }

    /// All in range.
    fn lists(&mut self) -> Lists {
        let count = 1 + self.up_to(63) as usize;
        let edition = 1 + self.below(2);
        let most = [1, 200, 65_535][self.below(3) as usize];
        let mut execution = |_| (edition % 2).max(self.up_to(most));
        let mut executions: Vec<u64> = (0..count).map(&mut execution).collect();
        executions[self.below(count as u64) as usize] = most;
        let nodes = u64::MAX >> (64 - count);
        let mut parents = |_| match self.below(4) {
            0 => nodes,
            1 => nodes & self.number() & self.number() & self.number(),
            _ => nodes & self.number(),
        };
        Lists {
            edition,
            parents: (0..count).map(&mut parents).collect(),
            id: 1 + self.up_to(65_534),
            period: 1 + self.up_to(16_777_214),
            executions,
        }
    }

    /// One or two numbers changed; most are out of range then.
    fn spoilt(&mut self) -> Lists {
        let mut lists = self.lists();
        for _ in 0..1 + self.below(2) {
            let any = self.up_to((1 << 28) - 1);
            let node = self.below(lists.executions.len() as u64) as usize;
            match self.below(8) {
                0 => lists.edition = self.below(4),
                1 => lists.id = [0, any][self.below(2) as usize],
                2 => lists.period = [0, any][self.below(2) as usize],
                3 => lists.executions.fill(0),
                4 => {
                    let count = 60 + self.below(10) as usize;
                    lists.executions.resize(count, any);
                    lists.parents.resize(count, any);
                }
                5 => lists.executions[node] = [0, any][self.below(2) as usize],
                6 => lists.parents[node] |= 1 << self.below(64),
                _ => lists.parents[node] = self.number() & self.number(),
            }
        }
        lists
    }
}

#[test]
fn there_and_back() {
    let mut random = Random(0x2545_F491_4F6C_DD1D);
    for _ in 0..5_000 {
        let lists = random.lists();
        let record = lists.written();
        assert_eq!(record, encoded(&lists.numbers()));
        assert_eq!(read(&record), Ok(lists.table()));
        let short = record.len() - 1;
        assert_eq!(lists.write(short).0, refused(19, short as u64));
    }
}

/// The record is made without regard to limits, and then the reader refuses
/// it.
#[test]
fn refused_as_the_reader_would() {
    let mut random = Random(0xD1B5_4A32_D192_ED03);
    let mut met = [0; 22];
    for _ in 0..20_000 {
        let lists = random.spoilt();
        let record = encoded(&lists.numbers());
        match read(&record) {
            Ok(_) => assert_eq!(lists.written(), record),
            Err(answer) => {
                met[answer.refusal as usize] += 1;
                assert_eq!(lists.refusal(), answer, "{lists:?}");
            }
        }
    }
    for refusal in [3, 4, 5, 6, 7, 8, 21] {
        assert!(met[refusal] > 300, "{refusal}: only {}", met[refusal]);
    }
}
