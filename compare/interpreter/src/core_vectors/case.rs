//! One case: a core, the calls on it in turn, and what they come to.

use crate::answers::FINE;
use crate::memory;
use crate::pipeline::{core_array, core_of, Core, WORDS};

/// The buffer that holds every case's memory, in bytes.
pub const BUFFER: usize = 65_544;

/// The most words and calls that a case gives, and the cycles that its calls may ask for together.
const MOST_WORDS: usize = 64;
const MOST_CALLS: usize = 16;
const MOST_CYCLES: u64 = 2000;

/// The cycles of a start's refills.
pub const START: u32 = 2;

// Fields of the array. Of mode 0 the counter is the entry.
pub const PC: usize = 15;
pub const ENTRY: usize = 15;
pub const FLAGS: usize = 16;
pub const IR1: usize = 17;
pub const IR2: usize = 19;
pub const IX: usize = 21;
pub const PHASE: usize = 23;
pub const ADDRESS: usize = 24;
pub const DATA: usize = 25;
pub const BASE: usize = 26;
pub const CYCLES: usize = 27;
pub const RETIRED: usize = 29;
pub const STOP: usize = 31;
pub const LENGTH: usize = 32;
pub const SUM_N: usize = 33;
pub const SUM_S: usize = 35;
pub const SUM_I: usize = 37;

/// What a call is.
pub const RUN: u32 = 0;
pub const SETTLE: u32 = 1;

/// A call on the first `lent` bytes of the buffer. A settle's budget is 0.
#[derive(Clone, Copy, Debug, PartialEq, Eq)]
pub struct Call {
    pub kind: u32,
    pub lent: u32,
    pub budget: u32,
}

#[derive(Clone, Debug, PartialEq, Eq)]
pub struct Case {
    pub topic: String,
    /// 0: start, then call on what it handed back. 1: call on the core given.
    pub mode: u32,
    pub length: u32,
    /// Mode 0: R0 to R14, entry, flags and zeros. Mode 1: the core's array.
    pub core: [u32; WORDS],
    pub words: Vec<u32>,
    pub calls: Vec<Call>,
}

/// A call with the core before it and what came of it.
pub struct Called {
    pub call: Call,
    pub before: Core,
    pub answer: u32,
    pub used: u64,
}

pub struct Outcome {
    pub start: u32,
    pub called: Vec<Called>,
    pub core: Core,
    pub buffer: Vec<u8>,
}

impl Case {
    /// A start at 0 of this code in a memory of 64 bytes or as long as the code, and no call yet.
    pub fn new(topic: impl Into<String>, code: &[u32]) -> Case {
        let mut core = [0; WORDS];
        for (name, value) in (1..).zip(&mut core[..15]) {
            *value = 0x0101_0101 * name;
        }
        Case {
            topic: topic.into(),
            mode: 0,
            length: 64,
            core,
            words: Vec::new(),
            calls: Vec::new(),
        }
        .at(0, code)
    }

    /// Puts words at an address; the memory grows to hold them.
    pub fn at(mut self, address: u32, words: &[u32]) -> Case {
        let first = address as usize / 4;
        let end = first + words.len();
        if self.words.len() < end {
            self.words.resize(end, 0);
        }
        self.words[first..end].copy_from_slice(words);
        self.length = self.length.max(4 * end as u32);
        self
    }

    pub fn topic(mut self, topic: impl Into<String>) -> Case {
        self.topic = topic.into();
        self
    }

    pub fn length(mut self, length: u32) -> Case {
        self.length = length;
        self
    }

    /// One word of the core's array: of mode 0 a register, the entry or the flags.
    pub fn field(mut self, field: usize, value: u32) -> Case {
        self.core[field] = value;
        self
    }

    pub fn fields(self, fields: &[(usize, u32)]) -> Case {
        let set = |case: Case, &(field, value): &(usize, u32)| case.field(field, value);
        fields.iter().fold(self, set)
    }

    /// A count of 64 bits: CYCLES, RETIRED or one of the sums.
    pub fn count(self, field: usize, count: u64) -> Case {
        self.field(field, count as u32)
            .field(field + 1, (count >> 32) as u32)
    }

    /// No start: the core that it would hand back, after so many cycles, and its memory then.
    pub fn after(mut self, cycles: u32) -> Case {
        let Outcome {
            start,
            called,
            core,
            buffer,
        } = self.clone().run(cycles).outcome();
        let spent = called.last().map(|it| (it.answer, it.used));
        assert_eq!((start, spent), (FINE, Some((FINE, cycles.into()))));
        self.mode = 1;
        self.core = core_array(&core);
        let words = (0..self.length.min(4 * MOST_WORDS as u32)).step_by(4);
        self.words = words.map(|at| memory::word(&buffer, at)).collect();
        self
    }

    /// A run on the case's memory.
    pub fn run(self, budget: u32) -> Case {
        let lent = self.length;
        self.run_on(lent, budget)
    }

    /// A settle on the case's memory.
    pub fn settle(self) -> Case {
        let lent = self.length;
        self.settle_on(lent)
    }

    pub fn run_on(mut self, lent: u32, budget: u32) -> Case {
        self.calls.push(Call {
            kind: RUN,
            lent,
            budget,
        });
        self
    }

    pub fn settle_on(mut self, lent: u32) -> Case {
        self.calls.push(Call {
            kind: SETTLE,
            lent,
            budget: 0,
        });
        self
    }

    /// The tokens of the case.
    pub fn tokens(&self) -> Vec<u32> {
        let words = self.words();
        let mut tokens = vec![
            self.mode,
            self.length,
            words.len() as u32,
            self.calls.len() as u32,
        ];
        tokens.extend(self.core);
        tokens.extend(words);
        for call in &self.calls {
            tokens.extend([call.kind, call.lent, call.budget]);
        }
        tokens
    }

    /// The words up to the last that isn't 0.
    fn words(&self) -> &[u32] {
        let last = self.words.iter().rposition(|&word| word != 0);
        &self.words[..last.map_or(0, |last| last + 1)]
    }

    /// Does the case keep to the format?
    pub fn is_proper(&self) -> bool {
        let small = |bytes: u32| bytes as usize <= BUFFER;
        let words = self.words().len();
        let core = match self.mode {
            0 => self.core[FLAGS + 1..].iter().all(|&word| word == 0),
            1 => core_of(&self.core).is_some(),
            _ => false,
        };
        let budgets = self.calls.iter().map(|call| u64::from(call.budget));
        core && words <= MOST_WORDS
            && 4 * words as u32 <= self.length
            && small(self.length)
            && self.calls.len() <= MOST_CALLS
            && self.calls.iter().all(|call| small(call.lent))
            && self.calls.iter().all(|call| match call.kind {
                RUN => true,
                SETTLE => call.budget == 0,
                _ => false,
            })
            && budgets.filter(|&budget| budget <= 1_000_000).sum::<u64>() <= MOST_CYCLES
    }

    pub fn outcome(&self) -> Outcome {
        let mut buffer = vec![0; BUFFER];
        for (index, &word) in self.words.iter().enumerate() {
            memory::set_word(&mut buffer, 4 * index as u32, word);
        }
        let (start, mut core) = self.first(&buffer);
        let mut called = Vec::new();
        for &call in &self.calls {
            let before = core.clone();
            let lent = &mut buffer[..call.lent as usize];
            let (answer, used, after) = match call.kind {
                RUN => core.run(lent, call.budget.into()),
                _ => core.settle(lent),
            };
            core = after;
            called.push(Called {
                call,
                before,
                answer,
                used,
            });
        }
        Outcome {
            start,
            called,
            core,
            buffer,
        }
    }

    /// The start's answer and the core that the calls begin with.
    fn first(&self, buffer: &[u8]) -> (u32, Core) {
        if self.mode == 1 {
            return (FINE, core_of(&self.core).expect("an array of a core"));
        }
        let r = self.core[..15].try_into().expect("fifteen registers");
        let lent = &buffer[..self.length as usize];
        Core::start(r, self.core[FLAGS], self.core[ENTRY], lent)
    }

    /// The tokens of the expected line.
    pub fn expected(&self) -> Vec<u32> {
        let outcome = self.outcome();
        let mut tokens = vec![outcome.start];
        for it in &outcome.called {
            tokens.extend([it.answer, it.used as u32]);
        }
        tokens.extend(core_array(&outcome.core));
        let words = self.length.min(256) / 4;
        tokens.extend((0..words).map(|index| memory::word(&outcome.buffer, 4 * index)));
        tokens
    }
}
