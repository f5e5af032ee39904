//! The planner against the document's definitions taken literally: reaching
//! by closure, cuts from every start and finish, offsets by walking parents,
//! a loop by leaving out nodes, an execution as what is written plus the cost,
//! a file's counts as sums over its tasks, a foreign plan by its rules.

use reference::{building, judge, note, plan, Answer, Counts, Row, PLAN_WORDS};
use std::collections::BTreeSet;

#[derive(Clone)]
struct Task {
    edition: u64,
    period: u64,
    cost: u64,
    /// As they are written.
    executions: Vec<u64>,
    parents: Vec<Vec<usize>>,
}

/// A small generator; the same numbers on every run.
struct Random(u64);

impl Random {
    fn below(&mut self, limit: u64) -> u64 {
        self.0 ^= self.0 << 13;
        self.0 ^= self.0 >> 7;
        self.0 ^= self.0 << 17;
        (self.0 >> 16) % limit
    }
}

fn number(bytes: &mut Vec<u8>, mut value: u64) {
    while value >= 128 {
        bytes.push(value as u8 | 0x80);
        value >>= 7;
    }
    bytes.push(value as u8);
}

impl Task {
    /// Any graph of the given density of edges, nodes in shuffled order; one
    /// in four may have edges that close a loop. Half are of edition 2, and
    /// most of these have joins.
    fn random(random: &mut Random) -> Task {
        let count = 1 + random.below(12) as usize;
        let mut rank: Vec<usize> = (0..count).collect();
        for at in 1..count {
            rank.swap(at, random.below(at as u64 + 1) as usize);
        }
        let any_way = random.below(4) == 0;
        let in_ten = 1 + random.below(10);
        let largest = [1, 3, 50, 65_535][random.below(4) as usize];
        let mut parents = vec![Vec::new(); count];
        for child in 0..count {
            for parent in 0..count {
                let may = any_way || rank[parent] < rank[child];
                if may && random.below(10) < in_ten {
                    parents[child].push(parent);
                }
            }
        }
        let edition = 1 + random.below(2);
        let any_cost = random.below(256);
        let mut task = Task {
            edition,
            period: 0,
            cost: [0, 1, any_cost, 255][random.below(4) as usize],
            executions: executions(random, edition, count, largest),
            parents,
        };
        task.period = 1 + random.below(3 * task.work().max(1));
        task
    }

    fn record(&self) -> Vec<u8> {
        let mut bytes = vec![self.edition as u8, 7];
        number(&mut bytes, self.period);
        number(&mut bytes, self.executions.len() as u64);
        for (execution, parents) in self.executions.iter().zip(&self.parents) {
            number(&mut bytes, *execution);
            number(&mut bytes, parents.len() as u64);
            for &parent in parents {
                number(&mut bytes, parent as u64);
            }
        }
        bytes
    }

    /// The answer, and the words that hold the plan.
    fn planned(&self) -> (Answer, Vec<u64>) {
        let mut words = [0; PLAN_WORDS];
        let answer = plan(&self.record(), &mut words, self.cost);
        (answer, words[..answer.value as usize].to_vec())
    }

    /// Written plus cost; a join pays nothing.
    fn execution(&self, node: usize) -> u64 {
        match self.executions[node] {
            0 => 0,
            written => written + self.cost,
        }
    }

    fn work(&self) -> u64 {
        let nodes = 0..self.executions.len();
        nodes.map(|node| self.execution(node)).sum()
    }

    /// With that path.
    fn is_heavy(&self, segment: &Segment, path: u64) -> bool {
        segment.threads() * (2 * self.period - path) > self.work()
    }

    /// Whether the node is reached from itself by edges inside the set.
    fn comes_back(&self, node: usize, set: &[bool]) -> bool {
        let count = self.executions.len();
        let mut reach = vec![vec![false; count]; count];
        for (child, parents) in self.parents.iter().enumerate() {
            for &parent in parents {
                reach[child][parent] = set[child] && set[parent];
            }
        }
        for middle in 0..count {
            for from in 0..count {
                for to in 0..count {
                    reach[from][to] |= reach[from][middle] && reach[middle][to];
                }
            }
        }
        reach[node][node]
    }

    /// The refusal that names the loop, if there is one.
    fn looping(&self) -> Option<Answer> {
        let count = self.executions.len();
        let mut set = vec![true; count];
        let named = (0..count).find(|&node| self.comes_back(node, &set))?;
        for node in (0..count).filter(|&node| node != named) {
            set[node] = false;
            set[node] = !self.comes_back(named, &set);
        }
        Some(Answer {
            refusal: 10,
            place: named as u64,
            value: 0,
            ring: (0..count).map(|node| u64::from(set[node]) << node).sum(),
        })
    }

    /// The greatest over the parents of that value, 0 without any.
    fn latest(&self, node: usize, value: &dyn Fn(usize) -> u64) -> u64 {
        let parents = &self.parents[node];
        parents
            .iter()
            .map(|&parent| value(parent))
            .max()
            .unwrap_or(0)
    }

    fn finish(&self, node: usize) -> u64 {
        self.latest(node, &|parent| self.finish(parent)) + self.execution(node)
    }

    fn offset(&self, node: usize, deadlines: &[u64]) -> u64 {
        let end = |parent: usize| self.offset(parent, deadlines) + deadlines[parent];
        self.latest(node, &end)
    }
}

/// In edition 2 up to nine in ten are 0.
fn executions(random: &mut Random, edition: u64, count: usize, largest: u64) -> Vec<u64> {
    let joins = (edition - 1) * random.below(10);
    let mut execution = |_| match random.below(10) < joins {
        true => 0,
        false => 1 + random.below(largest),
    };
    (0..count).map(&mut execution).collect()
}

struct Segment {
    length: u64,
    running: Vec<usize>,
}

impl Segment {
    fn threads(&self) -> u64 {
        self.running.len() as u64
    }

    fn work(&self) -> u64 {
        self.threads() * self.length
    }
}

fn segments(task: &Task) -> Vec<Segment> {
    let count = task.executions.len();
    let finishes: Vec<u64> = (0..count).map(|node| task.finish(node)).collect();
    let start = |node: usize| finishes[node] - task.execution(node);
    let starts = (0..count).map(start);
    let cuts: BTreeSet<u64> = finishes.iter().copied().chain(starts).collect();
    let cuts: Vec<u64> = cuts.into_iter().collect();
    let between = |cut: &[u64]| {
        let through = |&node: &usize| start(node) <= cut[0] && cut[1] <= finishes[node];
        Segment {
            length: cut[1] - cut[0],
            running: (0..count).filter(through).collect(),
        }
    };
    cuts.windows(2).map(between).collect()
}

fn total<'a>(segments: impl IntoIterator<Item = &'a Segment>) -> u64 {
    segments.into_iter().map(|segment| segment.length).sum()
}

/// Q and the segments' deadline numerators.
fn deadlines(task: &Task, segments: &[Segment]) -> (u64, Vec<u64>) {
    let period = task.period;
    let work = task.work();
    let path = total(segments);
    let is_heavy = |segment: &Segment| task.is_heavy(segment, path);
    let l = total(segments.iter().filter(|segment| !is_heavy(segment)));
    let heavy = segments.iter().filter(|segment| is_heavy(segment));
    let h: u64 = heavy.map(Segment::work).sum();
    if segments.iter().all(is_heavy) {
        let numerator = |segment: &Segment| period * segment.work();
        return (work, segments.iter().map(numerator).collect());
    }
    if !segments.iter().any(is_heavy) {
        let numerator = |segment: &Segment| period * segment.length;
        return (path, segments.iter().map(numerator).collect());
    }
    let numerator = |segment: &Segment| match is_heavy(segment) {
        true => (2 * period - l) * segment.work(),
        false => segment.length * h,
    };
    (2 * h, segments.iter().map(numerator).collect())
}

fn refused(refusal: u64) -> Answer {
    Answer {
        refusal,
        ..Answer::default()
    }
}

/// Execution over deadline in millionths, rounded up; a join's is 0, and so is that
/// of a foreign plan without a deadline.
fn density(execution: u64, over: u64, deadline: u64) -> u64 {
    if execution == 0 || deadline == 0 {
        return 0;
    }
    let above = u128::from(execution) * u128::from(over) * 1_000_000;
    let below = u128::from(deadline);
    (above / below + u128::from(above % below != 0)) as u64
}

/// The plan's words, or the refusal.
fn literal(task: &Task) -> Result<Vec<u64>, Answer> {
    if task.executions.iter().all(|&execution| execution == 0) {
        return Err(refused(21));
    }
    if let Some(refusal) = task.looping() {
        return Err(refusal);
    }
    let segments = segments(task);
    if total(&segments) > task.period {
        return Err(refused(11));
    }
    let (over, numerators) = deadlines(task, &segments);
    Ok(words(task, &segments, over, &numerators))
}

/// Of a plan with these numerators, whatever they are.
fn words(task: &Task, segments: &[Segment], over: u64, numerators: &[u64]) -> Vec<u64> {
    let count = task.executions.len();
    let mut words = vec![over, segments.len() as u64, count as u64];
    let mut node_deadlines = vec![0; count];
    for (segment, numerator) in segments.iter().zip(numerators) {
        words.extend([segment.threads(), segment.length, *numerator]);
        for &node in &segment.running {
            node_deadlines[node] += numerator;
        }
    }
    for (node, &deadline) in node_deadlines.iter().enumerate() {
        let density = density(task.execution(node), over, deadline);
        words.extend([task.offset(node, &node_deadlines), deadline, density]);
    }
    words
}

#[test]
fn random_tasks() {
    let mut random = Random(0x2545_F491_4F6C_DD1D);
    let (mut planned, mut with_joins, mut with_cost) = (0, 0, 0);
    for _ in 0..20_000 {
        let task = Task::random(&mut random);
        let (answer, words) = task.planned();
        match literal(&task) {
            Ok(expected) => {
                planned += 1;
                with_joins += u64::from(task.executions.contains(&0));
                with_cost += u64::from(task.cost > 0);
                assert_eq!(answer.refusal, 0);
                assert_eq!(words, expected);
            }
            Err(refusal) => assert_eq!(answer, refusal),
        }
    }
    assert!(planned > 5_000, "only {planned} tasks were planned");
    assert!(with_joins > 2_000, "only {with_joins} had joins");
    assert!(with_cost > 5_000, "only {with_cost} paid a cost");
}

/// The row of a task with that plan: joins are among the nodes, and in no other
/// figure.
fn row(task: &Task, words: &[u64]) -> Row {
    let triples = words[3 + 3 * words[1] as usize..].chunks(3);
    let nodes = (0..task.executions.len()).zip(triples);
    let steps: Vec<_> = nodes
        .filter(|(node, _)| task.execution(*node) > 0)
        .collect();
    let executions = steps.iter().map(|(node, _)| task.execution(*node));
    let densities = steps.iter().map(|(_, triple)| triple[2]);
    let deadlines = steps.iter().map(|(_, triple)| triple[1]);
    Row {
        id: 7,
        nodes: task.executions.len() as u64,
        sum: densities.clone().sum(),
        largest: densities.max().unwrap(),
        longest: executions.max().unwrap(),
        shortest: deadlines.min().unwrap(),
        over: words[0],
    }
}

#[test]
fn rows_of_random_tasks() {
    let mut random = Random(0xD1B5_4A32_D192_ED03);
    let mut noted = 0;
    for _ in 0..20_000 {
        let task = Task::random(&mut random);
        let mut board = [Row::default(); 16];
        note(&task.record(), &mut [0; PLAN_WORDS], &mut board, task.cost);
        let mut expected = [Row::default(); 16];
        if let Ok(words) = literal(&task) {
            noted += 1;
            expected[0] = row(&task, &words);
        }
        assert_eq!(board, expected);
    }
    assert!(noted > 5_000, "only {noted} tasks were noted");
}

#[test]
fn a_cost_may_as_well_be_written() {
    let mut random = Random(0x9E37_79B9_7F4A_7C15);
    let mut planned = 0;
    for _ in 0..20_000 {
        let task = Task::random(&mut random);
        let nodes = 0..task.executions.len();
        let dear = Task {
            cost: 0,
            executions: nodes.map(|node| task.execution(node)).collect(),
            ..task.clone()
        };
        if dear.executions.iter().all(|&execution| execution <= 65_535) {
            let (answer, words) = task.planned();
            planned += u64::from(task.cost > 0 && answer.refusal == 0);
            assert_eq!((answer, words), dear.planned());
        }
    }
    assert!(planned > 5_000, "only {planned} paid a cost");
}

/// Adds what is counted of a task. Whether a density is above one is seen in the
/// unrounded fraction.
fn count(counts: &mut Counts, task: &Task) {
    counts.records += 1;
    let words = match literal(task) {
        Ok(words) => words,
        Err(Answer { refusal, .. }) => {
            counts.refused[refusal as usize] += 1;
            return;
        }
    };
    let segments = segments(task);
    let path = total(&segments);
    let heavy = segments
        .iter()
        .filter(|segment| task.is_heavy(segment, path));
    let heavy = heavy.count();
    let mut nodes = (0..).zip(words[3 + 3 * segments.len()..].chunks(3));
    let is_dense = nodes.any(|(node, triple)| task.execution(node) * words[0] > triple[1]);
    counts.accepted += 1;
    counts.nodes += task.executions.len() as u64;
    counts.segments += segments.len() as u64;
    counts.work += task.work();
    counts.heavy += heavy as u64;
    counts.light += (segments.len() - heavy) as u64;
    counts.dense += u64::from(is_dense);
}

#[test]
fn files_of_random_tasks() {
    let mut random = Random(0x1405_7B7E_F767_814F);
    let [mut heavy, mut light, mut dense] = [0; 3];
    for _ in 0..4_000 {
        let cost = [0, 0, 1, random.below(256), 255][random.below(5) as usize];
        let (mut file, mut expected) = (Vec::new(), Counts::default());
        for _ in 0..random.below(9) {
            let mut task = Task::random(&mut random);
            task.cost = cost;
            let record = task.record();
            number(&mut file, record.len() as u64);
            file.extend(record);
            count(&mut expected, &task);
        }
        expected.answer.value = expected.records;
        assert_eq!(building(&file, cost), expected);
        heavy += expected.heavy;
        light += expected.light;
        dense += expected.dense;
    }
    assert!(heavy > 5_000, "only {heavy} segments were heavy");
    assert!(light > 500, "only {light} segments were light");
    assert!(dense > 300, "only {dense} tasks were dense");
}

/// A plan with time moved from segments to others, and half of them with a word
/// changed.
fn foreign(random: &mut Random, task: &Task) -> Vec<u64> {
    let segments = segments(task);
    let (mut over, mut numerators) = deadlines(task, &segments);
    let times = 1 + random.below(3);
    over *= times;
    numerators
        .iter_mut()
        .for_each(|numerator| *numerator *= times);
    for _ in 0..random.below(3) {
        let [from, to] = [0; 2].map(|_| random.below(segments.len() as u64) as usize);
        let most = numerators[from] / [1, 2, 10][random.below(3) as usize];
        let moved = random.below(most + 1);
        numerators[from] -= moved;
        numerators[to] += moved;
    }
    let mut words = words(task, &segments, over, &numerators);
    if random.below(2) == 0 {
        let at = [0, 3 + random.below(words.len() as u64 - 3) as usize];
        let word = &mut words[at[usize::from(random.below(8) > 0)]];
        *word = [*word + 1, word.saturating_sub(1), 0, 2 * *word][random.below(4) as usize];
    }
    words
}

/// Id 7, then the words with each count before its list.
fn plan_record(words: &[u64]) -> Vec<u8> {
    let (segments, nodes) = words[3..].split_at(3 * words[1] as usize);
    let numbers = [&[7, words[0], words[1]], segments, &[words[2]], nodes].concat();
    let mut record = Vec::new();
    numbers.iter().for_each(|&value| number(&mut record, value));
    record
}

/// The number of the first rule that the plan breaks, by the unrounded fractions.
fn first_broken(task: &Task, words: &[u64]) -> Option<u64> {
    let own = segments(task);
    let wide = |triple: &[u64]| [triple[0], triple[1], triple[2]].map(u128::from);
    let (segments, nodes) = words[3..].split_at(3 * words[1] as usize);
    let segments: Vec<[u128; 3]> = segments.chunks(3).map(wide).collect();
    let nodes: Vec<[u128; 3]> = nodes.chunks(3).map(wide).collect();
    let [over, period, work] = [words[0], task.period, task.work()].map(u128::from);
    let execution = |node: usize| u128::from(task.execution(node));
    let is_cut = |(own, foreign): (&Segment, &[u128; 3])| {
        [own.threads(), own.length].map(u128::from) == foreign[..2]
    };
    let is_sum = |(node, triple): (usize, &[u128; 3])| {
        let runs = |(own, foreign): (&Segment, &[u128; 3])| {
            own.running.contains(&node).then_some(foreign[2])
        };
        // What starts and ends at one cut runs in no segment.
        let through = own.iter().zip(&segments).filter_map(runs);
        triple[1] == through.sum()
    };
    let follows = |(node, triple): (usize, &[u128; 3])| {
        let ends = task.parents[node]
            .iter()
            .map(|&parent| nodes[parent][0] + nodes[parent][1]);
        triple[0] == ends.max().unwrap_or(0)
    };
    let rules: [&dyn Fn() -> bool; 8] = [
        &|| 0 < over && over <= 8_421_120,
        &|| own.len() == segments.len() && own.iter().zip(&segments).all(is_cut),
        &|| segments.iter().map(|segment| segment[2]).sum::<u128>() == period * over,
        &|| nodes.iter().enumerate().all(is_sum),
        &|| nodes.iter().enumerate().all(follows),
        &|| {
            (0..)
                .zip(&nodes)
                .all(|(node, triple)| execution(node) * over <= 2 * triple[1])
        },
        &|| {
            let mut segments = segments.iter();
            segments.all(|[m, e, numerator]| m * e * over * period <= 2 * work * numerator)
        },
        &|| {
            let mut nodes = (0..).zip(words[3 + 3 * own.len()..].chunks(3));
            nodes.all(|(node, triple)| {
                triple[2] == density(task.execution(node), words[0], triple[1])
            })
        },
    ];
    let broken = rules.iter().position(|holds| !holds());
    broken.map(|at| at as u64 + 1)
}

#[test]
fn foreign_plans_of_random_tasks() {
    let mut random = Random(0x8CB9_2BA7_2F3D_8DD7);
    let (mut accepted, mut broken) = (0, [0; 9]);
    for _ in 0..20_000 {
        let task = Task::random(&mut random);
        if literal(&task).is_err() {
            continue;
        }
        let words = foreign(&mut random, &task);
        let mut lent = [0; PLAN_WORDS];
        let answer = judge(&task.record(), &plan_record(&words), &mut lent, task.cost);
        let Some(rule) = first_broken(&task, &words) else {
            accepted += 1;
            assert_eq!((answer.refusal, answer.value), (0, 7));
            assert_eq!(lent[..words.len()], words);
            continue;
        };
        broken[rule as usize] += 1;
        assert_eq!((answer.refusal, answer.place), (25, rule));
        assert_eq!(lent, [0; PLAN_WORDS]);
    }
    assert!(accepted > 1_000, "only {accepted} were accepted");
    assert!(broken[1..].iter().all(|&many| many > 20), "{broken:?}");
}
