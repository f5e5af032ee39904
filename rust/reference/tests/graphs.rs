//! Reading a Standard Task Graph text: the record that comes of it, every
//! refusal at its place, and the printed sheet.

use reference::{
    graph_sheet, plan, read, read_graph, read_text, sheet, write_record, Answer, PLAN_WORDS,
};

const OLD: u8 = 0xA5;

/// The longest that is written.
const LONGEST: usize = 4_361;

const ID: u64 = 7;
const PERIOD: u64 = 60;

/// The dummy entry, two tasks, and the dummy exit.
const TWO: &str = "2\n0 0 0\n1 4 1 0\n2 3 1 0\n3 0 2 1 2\n";

/// Its record, with the id and the period from above.
const TWO_RECORD: [u8; 16] = [2, 7, 60, 4, 0, 0, 4, 1, 0, 3, 1, 0, 0, 2, 1, 2];

/// The answer and the bytes written; the others have to keep their content.
fn read_into(text: &[u8], lent: usize, id: u64, period: u64) -> (Answer, Vec<u8>) {
    let mut bytes = vec![OLD; lent];
    let answer = read_graph(text, &mut bytes, id, period);
    let rest = bytes.split_off(answer.value as usize);
    assert!(rest.iter().all(|&byte| byte == OLD));
    (answer, bytes)
}

/// The record, which holds the table that is read.
fn record(text: impl AsRef<[u8]>) -> Vec<u8> {
    let text = text.as_ref();
    let (answer, bytes) = read_into(text, LONGEST + 5, ID, PERIOD);
    let value = bytes.len() as u64;
    assert_eq!(
        answer,
        Answer {
            value,
            ..Answer::default()
        }
    );
    let table = read_text(text, ID, PERIOD).unwrap();
    assert_eq!((table.edition, table.id, table.period), (2, ID, PERIOD));
    assert_eq!(read(&bytes).unwrap(), table);
    bytes
}

/// The same whether there is room or not, and for the table.
fn refusal(text: impl AsRef<[u8]>) -> Answer {
    refusal_of(text.as_ref(), ID, PERIOD)
}

fn refusal_of(text: &[u8], id: u64, period: u64) -> Answer {
    let (answer, _) = read_into(text, LONGEST, id, period);
    assert_ne!(answer.refusal, 0);
    assert_eq!(read_into(text, 0, id, period).0, answer);
    assert_eq!(read_text(text, id, period), Err(answer));
    answer
}

fn refused(refusal: u64, place: usize) -> Answer {
    Answer {
        refusal,
        place: place as u64,
        ..Answer::default()
    }
}

fn words(text: &str) -> Vec<&str> {
    text.split_ascii_whitespace().collect()
}

/// The words of the text above, one of them replaced, and where that one stands.
fn with_word(at: usize, word: &str) -> (String, usize) {
    let mut words = words(TWO);
    let place = words[..at].iter().map(|word| word.len() + 1).sum();
    words[at] = word;
    (words.join(" "), place)
}

/// Also where the text ends with that word.
fn refused_word(at: usize, word: &str, rule: u64) {
    let (text, place) = with_word(at, word);
    assert_eq!(refusal(&text), refused(rule, place), "{word} at {at}");
    let cut = &text[..place + word.len()];
    assert_eq!(refusal(cut), refused(rule, place), "{word} at {at}");
}

/// Where the words of a kind stand in the text above; it has four tasks.
const COUNT: usize = 0;
const NUMBERS: [usize; 4] = [1, 4, 8, 12];
const TIMES: [usize; 4] = [2, 5, 9, 13];
const COUNTS: [usize; 4] = [3, 6, 10, 14];
const PREDECESSORS: [usize; 4] = [7, 11, 15, 16];
const ALL: usize = 17;

/// Just past a limit, and above 64 bits.
fn larger_than(most: u64) -> Vec<String> {
    let most = u128::from(most);
    let mut larger = vec![most + 1, most + 2, most + 9, 10 * most + 10];
    for bits in [8, 16, 32, 63, 64, 96] {
        let congruent = (0..4).chain([most, most + 1]);
        larger.extend(congruent.map(|value| (1 << bits) + value));
    }
    larger.retain(|&value| value > most);
    let mut larger: Vec<String> = larger.iter().map(u128::to_string).collect();
    larger.extend([
        "1".to_string() + &"0".repeat(30),
        "1".to_string() + &"0".repeat(4_000),
        "9".repeat(5_000),
        "0".repeat(300) + &"4".repeat(300),
        // 2^128, and 1 and 2 more.
        "340282366920938463463374607431768211456".to_string(),
        "340282366920938463463374607431768211457".to_string(),
        "340282366920938463463374607431768211458".to_string(),
    ]);
    larger
}

#[test]
fn two_tasks() {
    assert_eq!(record(TWO), TWO_RECORD);
}

#[test]
fn two_dummies_alone() {
    assert_eq!(record("0 0 5 0 1 0 0"), [2, 7, 60, 2, 5, 0, 0, 0]);
    assert_eq!(record("0 0 0 0 1 6 1 0"), [2, 7, 60, 2, 0, 0, 6, 1, 0]);
    assert_eq!(refusal("0 0 0 0 1 0 1 0"), refused(21, 0));
    assert_eq!(refusal("0"), refused(22, 1));
    assert_eq!(refusal("0 0 5 0"), refused(22, 7));
}

#[test]
fn partings() {
    for parting in [" ", "\n", "\r", "\r\n", "\n\r", "   ", " \n\n\r \n"] {
        let text = words(TWO).join(parting);
        assert_eq!(record(&text), TWO_RECORD);
        assert_eq!(record(parting.to_string() + &text), TWO_RECORD);
        assert_eq!(record(text + parting), TWO_RECORD);
    }
    let columns = "    2   \r\n    0    0    0 \r\n    1    4    1    0 \r\n    2    3    1    0 \r\n    3    0    2    1    2 \r\n";
    assert_eq!(record(columns), TWO_RECORD);
}

/// Any byte but the three joins two words, and belongs to the one it follows.
#[test]
fn every_byte_between_words() {
    let text = TWO.as_bytes();
    for at in (0..text.len()).filter(|&at| text[at] == b' ') {
        for byte in 0..=u8::MAX {
            let mut changed = text.to_vec();
            changed[at] = byte;
            let starts_before = |byte: &u8| byte.is_ascii_whitespace();
            let word = text[..at].iter().rposition(starts_before).unwrap() + 1;
            match byte {
                b' ' | b'\n' | b'\r' => assert_eq!(record(&changed), TWO_RECORD),
                // A number of its own, which may be a good one.
                b'0'..=b'9' => (),
                _ => assert_eq!(refusal(&changed), refused(22, word)),
            }
        }
    }
}

#[test]
fn tabs_do_not_part() {
    assert_eq!(refusal("2\t0 0 0"), refused(22, 0));
    assert_eq!(refusal("2\n0\t0\t0\n"), refused(22, 2));
    assert_eq!(refusal(TWO.replace("1 4", "1\t4")), refused(22, 8));
    assert_eq!(refusal(format!("{TWO}\t")), refused(22, TWO.len()));
    assert_eq!(refusal("\t"), refused(22, 0));
    assert_eq!(refusal(" \t2 0 0 0"), refused(22, 1));
}

#[test]
fn every_word_that_is_no_number() {
    let bad = [
        "a", "-", "-1", "+1", "1a", "a1", "1.", ".5", "0x1", "1#", "#", "#1", "/", ":", "1:", "/1",
        "1\t", "\t1", "\0", "1\0", "\u{b}1", "\u{c}", "1,", "\u{7f}", "1e3", "\u{663}",
    ];
    for at in 0..ALL {
        for word in bad {
            refused_word(at, word, 22);
            // However large it would be.
            let long = "9".repeat(40) + word;
            refused_word(at, &long, 22);
        }
    }
    for byte in [0x80, 0xB2, 0xFF] {
        assert_eq!(refusal([byte]), refused(22, 0));
        assert_eq!(refusal([b'2', byte]), refused(22, 0));
        assert_eq!(refusal([b' ', b'2', b'\n', byte]), refused(22, 3));
    }
}

#[test]
fn zeros_in_front() {
    for zeros in [1, 2, 19, 20, 64, 300, 5_000] {
        let zeros = "0".repeat(zeros);
        let text: Vec<String> = words(TWO).iter().map(|word| zeros.clone() + word).collect();
        assert_eq!(record(text.join("\n")), TWO_RECORD);
        for at in 0..ALL {
            let word = zeros.clone() + words(TWO)[at];
            assert_eq!(record(with_word(at, &word).0), TWO_RECORD);
        }
    }
}

#[test]
fn texts_that_stop_short() {
    assert_eq!(refusal(""), refused(22, 0));
    for partings in [" ", "\n", "\r\n", "   \n\n  \r "] {
        assert_eq!(refusal(partings), refused(22, partings.len()));
    }
    // Cut within a number it would be another one; here each is a digit.
    let whole = TWO.len() - 1;
    for length in 0..whole {
        assert_eq!(refusal(&TWO[..length]), refused(22, length));
    }
    assert_eq!(record(&TWO[..whole]), TWO_RECORD);
    // Partings do not help.
    for length in 0..whole {
        let text = TWO[..length].to_string() + "\r\n \n";
        assert_eq!(refusal(&text), refused(22, text.len()));
    }
}

#[test]
fn counts() {
    for count in 0..=62 {
        let mut text = format!("{count}\n0 1 0\n");
        for task in 1..count + 2 {
            text += &format!("{task} 0 1 {}\n", task - 1);
        }
        assert_eq!(
            read_text(text.as_bytes(), ID, PERIOD).unwrap().count,
            count + 2
        );
        assert_eq!(
            refusal(format!("{text}{}", count + 2)),
            refused(22, text.len())
        );
        let last_line = text.trim_end().rfind('\n').unwrap() + 1;
        assert_eq!(refusal(&text[..last_line]), refused(22, last_line));
    }
    for count in larger_than(62) {
        refused_word(COUNT, &count, 23);
    }
    // Before anything else is looked at, and not before the whole word.
    assert_eq!(refusal("\n 63 x"), refused(23, 2));
    assert_eq!(refusal("\n 63x"), refused(22, 2));
    assert_eq!(refusal("062"), refused(22, 3));
    assert_eq!(refusal("063"), refused(23, 0));
}

#[test]
fn task_numbers_run_upward() {
    for (task, at) in NUMBERS.into_iter().enumerate() {
        for other in (0..10).filter(|&other| other != task) {
            refused_word(at, &other.to_string(), 22);
        }
        for bits in [8, 16, 32, 64, 96] {
            let congruent = (1u128 << bits) + task as u128;
            refused_word(at, &congruent.to_string(), 22);
        }
        refused_word(
            at,
            &format!("34028236692093846346337460743176821145{}", 6 + task),
            22,
        );
    }
}

#[test]
fn times() {
    for at in TIMES {
        for time in ["0", "1", "65535", "0000065535"] {
            record(with_word(at, time).0);
        }
        for time in larger_than(65_535) {
            refused_word(at, &time, 7);
        }
    }
    let (text, _) = with_word(TIMES[0], "65535");
    assert_eq!(record(text)[4..8], [0xFF, 0xFF, 3, 0]);
}

#[test]
fn numbers_of_predecessors() {
    for at in COUNTS {
        for count in larger_than(4) {
            refused_word(at, &count, 8);
        }
    }
    // All four, and the own number among them.
    let all = "2 0 0 0 1 4 4 3 1 0 2 2 3 0 3 0 0";
    let record_of_all = [2, 7, 60, 4, 0, 0, 4, 4, 0, 1, 2, 3, 3, 0, 0, 0];
    assert_eq!(record(all), record_of_all);
    assert_eq!(refusal("2 0 0 0 1 4 5 3 1 0 2 2"), refused(8, 12));
    // It is met before the predecessors are.
    assert_eq!(refusal("2 0 0 5"), refused(8, 6));
    assert_eq!(refusal("2 0 0 4"), refused(22, 7));
}

#[test]
fn predecessors() {
    for at in PREDECESSORS {
        for predecessor in larger_than(3) {
            refused_word(at, &predecessor, 8);
        }
    }
    // In any order.
    let sorted = record("2 0 0 3 1 2 3 1 4 0 2 3 0 3 0 0");
    for order in ["1 3 2", "2 1 3", "2 3 1", "3 1 2", "3 2 1"] {
        let text = format!("2 0 0 3 {order} 1 4 0 2 3 0 3 0 0");
        assert_eq!(record(text), sorted);
    }
}

#[test]
fn a_predecessor_given_twice() {
    let (text, place) = with_word(PREDECESSORS[3], "1");
    assert_eq!(refusal(&text), refused(8, place));
    let (text, place) = with_word(PREDECESSORS[3], "0001");
    assert_eq!(refusal(&text), refused(8, place));
    // At the second one, whatever stands between and after.
    assert_eq!(refusal("2 0 0 4 3 1 2 3"), refused(8, 14));
    assert_eq!(refusal("2 0 0 4 3 1 3 9"), refused(8, 12));
    assert_eq!(refusal("2 0 0 4 3 9 3 3"), refused(8, 10));
    // In lists of their own they may be the same.
    record("2 0 0 1 3 1 4 1 3 2 3 1 3 3 0 1 3");
}

#[test]
fn loops_and_long_paths_are_read() {
    let itself = record("0 0 5 1 0 1 0 0");
    assert_eq!(plan(&itself, &mut [0; PLAN_WORDS], 0).refusal, 10);
    let round = record("0 0 5 1 1 1 5 1 0");
    assert_eq!(plan(&round, &mut [0; PLAN_WORDS], 0).refusal, 10);
    let long = record("0 0 61 0 1 0 0");
    assert_eq!(plan(&long, &mut [0; PLAN_WORDS], 0).refusal, 11);
}

#[test]
fn comments() {
    let text = TWO.trim_end();
    let comments = [
        "#",
        "##",
        "#1",
        "# 4 0 0",
        "#\n9 9 9\n",
        "#\t",
        "#\0\u{ff}",
        "# drawn by us\n# x\n",
        "#a #b",
    ];
    for comment in comments {
        for parting in ["\n", " ", "\r\n", " \n\r "] {
            assert_eq!(record(format!("{text}{parting}{comment}")), TWO_RECORD);
        }
        // Joined to the last number it is none.
        assert_eq!(
            refusal(format!("{text}{comment}")),
            refused(22, text.len() - 1)
        );
    }
    assert_eq!(
        record([text.as_bytes(), b"\n#\x80\xff\t\x00"].concat()),
        TWO_RECORD
    );
    for follows in ["0", "4", "4 0 0", "x", "-#", "\t#", "0#", "//"] {
        let text = format!("{text} {follows} # end");
        assert_eq!(refusal(text), refused(22, TWO.len()));
    }
}

#[test]
fn a_comment_before_the_last_task_is_done() {
    for at in 0..ALL {
        let mut words = words(TWO);
        let place = words[..at].iter().map(|word| word.len() + 1).sum();
        words.insert(at, "#");
        assert_eq!(refusal(words.join(" ")), refused(22, place));
        assert_eq!(refusal(words.join("\n")), refused(22, place));
    }
    assert_eq!(refusal("# 2"), refused(22, 0));
    assert_eq!(refusal(" #"), refused(22, 1));
}

#[test]
fn id_and_period_come_first() {
    let (wrong_ids, wrong_periods) = (
        [0, 65_536, 1 << 32 | 7, u64::MAX],
        [0, 16_777_216, 1 << 32 | 7, u64::MAX],
    );
    for text in [TWO, "", "x", "63", "2 0 65536", "2 0 0 5", "0 0 0 0 1 0 0"] {
        for id in wrong_ids {
            for period in wrong_periods.into_iter().chain([1, 60]) {
                assert_eq!(refusal_of(text.as_bytes(), id, period), refused(4, 0));
            }
        }
        for period in wrong_periods {
            for id in [1, 7, 65_535] {
                assert_eq!(refusal_of(text.as_bytes(), id, period), refused(5, 0));
            }
        }
    }
    for (id, period) in [(1, 1), (65_535, 16_777_215), (1, 16_777_215), (65_535, 1)] {
        let table = read_text(TWO.as_bytes(), id, period).unwrap();
        assert_eq!((table.id, table.period), (id, period));
    }
}

#[test]
fn the_first_fault_counts() {
    assert_eq!(refusal("63 1"), refused(23, 0));
    assert_eq!(refusal("2 1 65536"), refused(22, 2));
    assert_eq!(refusal("2 0 65536 5"), refused(7, 4));
    assert_eq!(refusal("2 0 65535 5 x"), refused(8, 10));
    assert_eq!(refusal("2 0 65536x 5"), refused(22, 4));
    assert_eq!(refusal("2 0 0 1 4x"), refused(22, 8));
    assert_eq!(refusal("2 0 0 1 4"), refused(8, 8));
}

#[test]
fn nothing_that_runs_comes_late() {
    let idle = "1 0 0 0 1 0 1 0 2 0 1 1";
    assert_eq!(refusal(idle), refused(21, 0));
    assert_eq!(refusal(format!("{idle}\n# idle")), refused(21, 0));
    assert_eq!(refusal(format!("{idle} 3")), refused(22, 24));
    assert_eq!(refusal(&idle[..22]), refused(22, 22));
    assert_eq!(refusal("1 0 0 0 1 0 1 0 2 0 1 3"), refused(8, 22));
    for at in [2, 5, 9] {
        let mut words = words(idle);
        words[at] = "1";
        record(words.join(" "));
    }
}

#[test]
fn a_short_buffer_comes_last() {
    for lent in 0..TWO_RECORD.len() {
        let answer = read_into(TWO.as_bytes(), lent, ID, PERIOD).0;
        assert_eq!(answer, refused(19, lent));
    }
    for lent in TWO_RECORD.len()..20 {
        let (answer, bytes) = read_into(TWO.as_bytes(), lent, ID, PERIOD);
        assert_eq!((answer.refusal, bytes), (0, TWO_RECORD.to_vec()));
    }
}

/// 62 tasks and the dummies, each with the others as predecessors, and itself.
fn longest(zeros: usize) -> String {
    let zeros = "0".repeat(zeros);
    let mut text = format!("{zeros}62\r\n");
    for task in 0..64 {
        text += &format!("{zeros}{task} {zeros}65535 {zeros}64");
        for predecessor in (0..64).rev() {
            text += &format!(" {zeros}{predecessor}");
        }
        text += "\r\n";
    }
    text
}

#[test]
fn the_longest_record() {
    let sets = [u64::MAX; 64];
    let mut expected = vec![0; LONGEST];
    let answer = write_record(&[65_535; 64], &sets, &mut expected, 2, 65_535, 16_777_215);
    assert_eq!(answer.value, LONGEST as u64);
    for zeros in [0, 1, 20] {
        let text = longest(zeros);
        let (answer, bytes) = read_into(text.as_bytes(), LONGEST, 65_535, 16_777_215);
        assert_eq!((answer.refusal, &bytes), (0, &expected));
        let (answer, _) = read_into(text.as_bytes(), LONGEST - 1, 65_535, 16_777_215);
        assert_eq!(answer, refused(19, LONGEST - 1));
    }
}

#[test]
fn the_sheet_is_that_of_the_record() {
    let mut bytes = [0; LONGEST];
    let answer = read_graph(TWO.as_bytes(), &mut bytes, 1, 8);
    let expected = sheet(&bytes[..answer.value as usize]);
    assert_eq!(graph_sheet(TWO.as_bytes()), expected);
    let text = String::from_utf8(expected).unwrap();
    assert!(text.starts_with("task 1 period 8 work 7 path 4 over "));
}

#[test]
fn the_sheet_of_the_longest_path() {
    let mut text = "62 0 65535 0".to_string();
    for task in 1..64 {
        text += &format!(" {task} 65535 1 {}", task - 1);
    }
    let sheet = String::from_utf8(graph_sheet(text.as_bytes())).unwrap();
    assert!(sheet.starts_with("task 1 period 8388480 work 4194240 path 4194240 over "));
}

fn line(input: impl AsRef<[u8]>) -> String {
    String::from_utf8(graph_sheet(input.as_ref())).unwrap()
}

#[test]
fn refusals_of_the_sheet() {
    assert_eq!(line(""), "refused 22 at 0\n");
    assert_eq!(line("2\n0 0 0\n2 4 1 0\n"), "refused 22 at 8\n");
    assert_eq!(line("63"), "refused 23 at 0\n");
    assert_eq!(line("2 0 65536"), "refused 7 at 4\n");
    assert_eq!(line("2 0 0 5"), "refused 8 at 6\n");
    assert_eq!(line("0 0 0 0 1 0 0"), "refused 21 at 0\n");
    assert_eq!(line("1 0 0 0 1 5 1 2 2 0 1 1"), "refused 10 at 1\n");
}

#[test]
fn an_input_that_is_too_long() {
    let limit = 65_536;
    let padded = |text: &str, length: usize| text.to_string() + &" ".repeat(length - text.len());
    let whole = line(TWO);
    assert_eq!(line(padded(TWO, limit)), whole);
    let late = "refused 22 at 65536\n";
    assert_eq!(line(padded(TWO, limit + 1)), late);
    // A comment within the limit ends the reading, and one past it does not.
    let commented = format!("{TWO}# end");
    assert_eq!(line(padded(&commented, 3 * limit)), whole);
    let last = padded(TWO, limit - 1) + "#";
    assert_eq!(line(&last), whole);
    assert_eq!(line(format!("{last} more")), whole);
    assert_eq!(line(padded(TWO, limit) + "#"), late);
    // Refused within the limit, too.
    for text in [
        "",
        "x",
        "63",
        "2 0 65536",
        "2 0 0 5",
        "0 0 0 0 1 0 0",
        "2 # 0",
    ] {
        assert_eq!(line(padded(text, limit + 1)), late);
    }
    // What is found out after the reading is said where a comment ended it.
    assert_eq!(
        line(padded("0 0 0 0 1 0 0 #", limit + 1)),
        "refused 21 at 0\n"
    );
    assert_eq!(
        line(padded("0 0 5 1 0 1 0 0 #", limit + 1)),
        "refused 10 at 0\n"
    );
    assert_eq!(line(padded("", limit)), late);
}

/// A small generator; the same numbers on every run.
struct Random(u64);

impl Random {
    fn below(&mut self, limit: u64) -> u64 {
        self.0 ^= self.0 << 13;
        self.0 ^= self.0 >> 7;
        self.0 ^= self.0 << 17;
        (self.0 >> 16) % limit
    }

    /// A word, with zeros before it and partings after it.
    fn word(&mut self, value: u64) -> String {
        let zeros = self.below(40).saturating_sub(36) as usize;
        let mut word = "0".repeat(zeros) + &value.to_string();
        for _ in 0..=self.below(4) / 2 {
            word.push([' ', '\n', '\r'][self.below(3) as usize]);
        }
        word
    }

    fn text(&mut self, executions: &[u64], parents: &[u64]) -> String {
        let mut text = self.word(executions.len() as u64 - 2);
        for (task, (&time, &set)) in executions.iter().zip(parents).enumerate() {
            let mut listed: Vec<u64> = (0..64).filter(|node| set >> node & 1 == 1).collect();
            text += &self.word(task as u64);
            text += &self.word(time);
            text += &self.word(listed.len() as u64);
            while !listed.is_empty() {
                let at = self.below(listed.len() as u64) as usize;
                text += &self.word(listed.swap_remove(at));
            }
        }
        match self.below(3) {
            0 => text + "# by chance",
            1 => text.trim_end().to_string(),
            _ => text,
        }
    }
}

#[test]
fn as_the_writer_writes_it() {
    let mut random = Random(0x2545_F491_4F6C_DD1D);
    for _ in 0..2_000 {
        let count = 2 + random.below(63) as usize;
        let executions: Vec<u64> = (0..count).map(|_| random.below(65_536)).collect();
        let all = u64::MAX >> (64 - count);
        let sparse = random.below(2) == 0;
        let mut set = || match sparse {
            true => 1 << random.below(count as u64),
            false => all & random.below(u64::MAX) << random.below(30),
        };
        let parents: Vec<u64> = (0..count).map(|_| set()).collect();
        let mut expected = vec![0; LONGEST];
        let answer = write_record(&executions, &parents, &mut expected, 2, ID, PERIOD);
        expected.truncate(answer.value as usize);
        let text = random.text(&executions, &parents);
        assert_eq!(record(&text), expected, "{text}");
        let (answer, _) = read_into(text.as_bytes(), expected.len() - 1, ID, PERIOD);
        assert_eq!(answer, refused(19, expected.len() - 1));
    }
}
