//! A text taken apart into words, whether it is a good one or not: for spoiling
//! and shrinking it, for other spellings, and for the record that has to come of
//! it.

use std::ops::Range;

/// What stands between words.
pub const PARTINGS: [u8; 3] = [b' ', b'\n', b'\r'];

pub const COMMENT: u8 = b'#';

/// A word, and the partings before it.
#[derive(Clone)]
pub struct Word {
    pub before: Vec<u8>,
    pub bytes: Vec<u8>,
}

impl Word {
    pub fn is_number(&self) -> bool {
        self.bytes.iter().all(u8::is_ascii_digit)
    }

    /// None for a word that is no number, or none of 64 bits.
    pub fn value(&self) -> Option<u64> {
        let digits = str::from_utf8(&self.bytes).ok();
        digits.filter(|_| self.is_number())?.parse().ok()
    }

    pub fn set(&mut self, value: u64) {
        self.bytes = value.to_string().into_bytes();
    }

    /// Changes the value, if there is one.
    fn change(&mut self, change: impl Fn(u64) -> u64) {
        if let Some(value) = self.value() {
            self.set(change(value));
        }
    }

    /// The same value with so many zeros in front.
    fn with_zeros(&mut self, zeros: usize) {
        let digit = self.bytes.iter().position(|&byte| byte != b'0');
        let first = digit.unwrap_or(self.bytes.len() - 1);
        self.bytes.splice(..first, vec![b'0'; zeros]);
    }
}

#[derive(Clone)]
pub struct Sketch {
    /// The last may be a comment; this goes on up to the text's end.
    pub words: Vec<Word>,
    /// The partings at the end.
    pub after: Vec<u8>,
}

impl Sketch {
    pub fn of(text: &[u8]) -> Sketch {
        let mut words = Vec::new();
        let mut rest = text;
        loop {
            let parts = |byte: &u8| PARTINGS.contains(byte);
            let first = rest.iter().position(|byte| !parts(byte));
            let (before, word) = rest.split_at(first.unwrap_or(rest.len()));
            let length = match word.first() {
                None => break,
                Some(&COMMENT) => word.len(),
                Some(_) => word.iter().position(parts).unwrap_or(word.len()),
            };
            let (bytes, after) = word.split_at(length);
            words.push(Word {
                before: before.to_vec(),
                bytes: bytes.to_vec(),
            });
            rest = after;
        }
        Sketch {
            words,
            after: rest.to_vec(),
        }
    }

    pub fn text(&self) -> Vec<u8> {
        let mut text = Vec::new();
        for Word { before, bytes } in &self.words {
            text.extend(before);
            text.extend(bytes);
        }
        text.extend(&self.after);
        text
    }

    /// Where each word begins, and the text's length.
    pub fn places(&self) -> Vec<u64> {
        let mut places = Vec::new();
        let mut end = 0;
        for Word { before, bytes } in &self.words {
            places.push(end + before.len() as u64);
            end += (before.len() + bytes.len()) as u64;
        }
        places.push(end + self.after.len() as u64);
        places
    }

    /// The words of each task that is there as a whole.
    pub fn tasks(&self) -> Vec<Range<usize>> {
        let mut tasks = Vec::new();
        let mut first = 1;
        while let Some(many) = self.words.get(first + 2).and_then(Word::value) {
            let end = many.saturating_add(first as u64 + 3);
            if end > self.words.len() as u64 {
                break;
            }
            tasks.push(first..end as usize);
            first = end as usize;
        }
        tasks
    }

    /// Drops tasks; later ones move up, in the predecessors too.
    pub fn drop_tasks(&mut self, first: usize, length: usize) {
        let tasks = self.tasks();
        let dropped = first as u64..(first + length) as u64;
        self.words[0].change(|count| count.saturating_sub(length as u64));
        for (task, words) in tasks.into_iter().enumerate().rev() {
            if dropped.contains(&(task as u64)) {
                self.words.drain(words);
                continue;
            }
            for at in (words.start + 3..words.end).rev() {
                let predecessor = self.words[at].value();
                if predecessor.is_some_and(|predecessor| dropped.contains(&predecessor)) {
                    self.drop_predecessors(words.start, at, 1);
                }
            }
            let moved = |number: u64| match number < dropped.end {
                true => number,
                false => number - length as u64,
            };
            self.words[words.start].change(moved);
            let many = self.words[words.start + 2].value().unwrap_or(0) as usize;
            let predecessors = words.start + 3..words.start + 3 + many;
            self.words[predecessors]
                .iter_mut()
                .for_each(|word| word.change(moved));
        }
    }

    /// Drops words of the task that begins there, all among its predecessors.
    pub fn drop_predecessors(&mut self, task: usize, first: usize, length: usize) {
        self.words.drain(first..first + length);
        self.words[task + 2].change(|many| many - length as u64);
    }

    /// The same words, otherwise parted, and numbers with other zeros in front.
    pub fn respelt(&self, spelling: &Spelling) -> Sketch {
        let mut words = self.words.clone();
        for (at, word) in words.iter_mut().enumerate() {
            word.before = match at {
                0 => spelling.first.to_vec(),
                _ => spelling.partings[at % spelling.partings.len()].to_vec(),
            };
            if word.is_number() {
                word.with_zeros(at % spelling.zeros);
            }
        }
        let after = spelling.last.to_vec();
        Sketch { words, after }
    }
}

/// The partings between words and the number of zeros take turns.
pub struct Spelling {
    first: &'static [u8],
    partings: &'static [&'static [u8]],
    last: &'static [u8],
    /// Fewer than this.
    zeros: usize,
}

/// No byte more than it takes, and more than it takes everywhere.
pub const SPELLINGS: [Spelling; 2] = [
    Spelling {
        first: b"",
        partings: &[b"\r", b" ", b"\n"],
        last: b"",
        zeros: 1,
    },
    Spelling {
        first: b"\n ",
        partings: &[b" \r\n", b"\n\n", b"   ", b"\r", b"\n\r \r"],
        last: b" \n",
        zeros: 24,
    },
];
