//! One case: what is lent to the plain machine, and what it makes of it.

use crate::memory;
use crate::plain::Plain;
use crate::walk;

/// The buffer that holds every case's memory, in bytes.
pub const BUFFER: usize = 65_544;

/// The most words that a case gives.
const MOST_WORDS: usize = 64;

#[derive(Clone, Debug, PartialEq, Eq)]
pub struct Case {
    pub topic: String,
    /// 0: start, then run what it handed back. 1: run the record given.
    pub mode: u32,
    pub length: u32,
    pub lent: u32,
    pub entry: u32,
    pub flags: u32,
    pub stop: u32,
    pub count: u32,
    pub r: [u32; 15],
    pub words: Vec<u32>,
}

impl Case {
    /// A start at 0 of this code in a memory of 64 bytes or as long as the code, each word to be
    /// done once.
    pub fn new(topic: impl Into<String>, code: &[u32]) -> Case {
        let mut r = [0; 15];
        for (name, value) in r.iter_mut().enumerate() {
            *value = 0x0101_0101 * (name as u32 + 1);
        }
        let length = (4 * code.len() as u32).max(64);
        Case {
            topic: topic.into(),
            mode: 0,
            length,
            lent: length,
            entry: 0,
            flags: 0,
            stop: 0,
            count: code.len() as u32,
            r,
            words: Vec::new(),
        }
        .at(0, code)
    }

    /// Puts words at an address; the memory grows to hold them.
    pub fn at(mut self, address: u32, words: &[u32]) -> Case {
        let first = address as usize / 4;
        let end = first + words.len();
        if self.words.len() < end {
            self.words.resize(end, 0);
        }
        self.words[first..end].copy_from_slice(words);
        let bytes = 4 * self.words.len() as u32;
        if self.length < bytes {
            self = self.length(bytes);
        }
        self
    }

    /// The memory's length, lent as it is.
    pub fn length(mut self, length: u32) -> Case {
        self.length = length;
        self.lent = length;
        self
    }

    pub fn lent(mut self, lent: u32) -> Case {
        self.lent = lent;
        self
    }

    pub fn entry(mut self, entry: u32) -> Case {
        self.entry = entry;
        self
    }

    pub fn flags(mut self, flags: u32) -> Case {
        self.flags = flags;
        self
    }

    pub fn count(mut self, count: u32) -> Case {
        self.count = count;
        self
    }

    pub fn r(mut self, name: usize, value: u32) -> Case {
        self.r[name] = value;
        self
    }

    /// No start: a record at `entry` with this stop.
    pub fn record(mut self, stop: u32) -> Case {
        self.mode = 1;
        self.stop = stop;
        self
    }

    /// The tokens of the case.
    pub fn tokens(&self) -> Vec<u32> {
        let mut tokens = vec![
            self.mode,
            self.length,
            self.lent,
            self.entry,
            self.flags,
            self.stop,
            self.count,
            self.words.len() as u32,
        ];
        tokens.extend(self.r);
        tokens.extend(&self.words);
        tokens
    }

    /// Does the case keep to the format?
    pub fn is_proper(&self) -> bool {
        let bytes = 4 * self.words.len() as u32;
        self.words.len() <= MOST_WORDS
            && bytes <= self.length
            && self.length as usize <= BUFFER
            && self.lent as usize <= BUFFER
            && (self.mode == 1 || self.mode == 0 && self.stop == 0)
    }

    /// The start's answer, the run's answer, the instructions done, the record afterwards and
    /// the buffer afterwards.
    pub fn outcome(&self) -> (u32, u32, u64, Plain, Vec<u8>) {
        let mut buffer = vec![0; BUFFER];
        for (index, &word) in self.words.iter().enumerate() {
            memory::set_word(&mut buffer, 4 * index as u32, word);
        }
        let (start, mut plain) = if self.mode == 0 {
            Plain::start(
                self.r,
                self.flags,
                self.entry,
                &buffer[..self.length as usize],
            )
        } else {
            let record = Plain {
                r: self.r,
                a: self.entry,
                flags: self.flags,
                stop: self.stop,
                length: self.length,
            };
            (0, record)
        };
        let lent = &mut buffer[..self.lent as usize];
        let (answer, done) = plain.run(lent, u64::from(self.count));
        (start, answer, done, plain, buffer)
    }

    /// The tokens of the expected line: what the outcome says, and behind its registers the walk that
    /// is due after it.
    pub fn expected(&self) -> Vec<u32> {
        let (start, answer, done, plain, buffer) = self.outcome();
        let mut tokens = vec![
            start,
            answer,
            done as u32,
            plain.a,
            plain.flags,
            plain.stop,
            plain.length,
        ];
        tokens.extend(plain.r);
        let due = walk::due(&plain, &buffer[..self.lent as usize]);
        tokens.extend([due.stop, due.looked]);
        let words = self.length.min(256) / 4;
        tokens.extend((0..words).map(|index| memory::word(&buffer, 4 * index)));
        tokens
    }
}

/// Words that are all different, byte by byte, to be loaded from `first` on.
pub fn data(first: u32, words: u32) -> Vec<u32> {
    let byte = |at: u32| (at * 37 + 0x83) & 0xFF;
    (0..words)
        .map(|index| first + 4 * index)
        .map(|at| byte(at) | byte(at + 1) << 8 | byte(at + 2) << 16 | byte(at + 3) << 24)
        .collect()
}
