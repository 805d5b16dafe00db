//! One case: an image, and what the report program says of it.

use crate::answers::FINE;
use crate::pipeline::Core;

/// The buffer that holds every image, in bytes.
pub const BUFFER: usize = 65_544;

/// The report program's budget.
pub const BUDGET: u64 = 64;

/// The cycles of a start's refills.
const START: usize = 2;

/// The most words that a case gives.
const MOST_WORDS: usize = 64;

#[derive(Clone, Debug, PartialEq, Eq)]
pub struct Case {
    pub topic: String,
    pub length: u32,
    pub words: Vec<u32>,
}

impl Case {
    /// An image of these words, padded with zeros to 64 bytes.
    pub fn new(topic: impl Into<String>, words: &[u32]) -> Case {
        Case {
            topic: topic.into(),
            length: (4 * words.len() as u32).max(64),
            words: words.to_vec(),
        }
    }

    /// An image whose `code` begins with so many cycles of the budget left. The words of `before`
    /// take a cycle each, as do the zeros between: a zero is AND R0, R0, R0 on EQ.
    pub fn with_left(topic: impl Into<String>, left: u64, before: &[u32], code: &[u32]) -> Case {
        let mut words = before.to_vec();
        words.resize(BUDGET as usize - START - left as usize, 0);
        words.extend(code);
        Case::new(topic, &words).length(0x200)
    }

    pub fn length(mut self, length: u32) -> Case {
        self.length = length;
        self
    }

    /// The tokens `length k w0 .. w(k-1)`, each of eight digits.
    pub fn line(&self) -> String {
        let mut tokens = vec![self.length, self.words.len() as u32];
        tokens.extend(&self.words);
        let tokens: Vec<String> = tokens.iter().map(|token| format!("{token:08X}")).collect();
        tokens.join(" ") + "\n"
    }

    /// Does the case keep to the format?
    pub fn is_proper(&self) -> bool {
        self.words.len() <= MOST_WORDS && self.length as usize <= BUFFER
    }

    /// The bytes of the words that are whole inside the length, and zeros.
    pub fn image(&self) -> Vec<u8> {
        let mut image = vec![0; self.length as usize];
        for (place, word) in image.chunks_exact_mut(4).zip(&self.words) {
            place.copy_from_slice(&word.to_le_bytes());
        }
        image
    }

    /// The answer, and the core unless the start was refused.
    pub fn outcome(&self) -> (u32, Option<Core>) {
        let mut image = self.image();
        let (refusal, core) = Core::start([0; 15], 0, 0, &image);
        if refusal != FINE {
            return (refusal, None);
        }
        let (answer, _, core) = core.run(&mut image, BUDGET);
        (answer, Some(core))
    }

    /// The report: answer, cycles, ticks and retired in decimal, the rest hexadecimal.
    pub fn report(&self) -> String {
        let (answer, core) = self.outcome();
        let mut text = format!("answer={answer}\n");
        if let Some(core) = core {
            text += &format!("pc={:08X}\n", core.pc);
            text += &format!("cycles={}\n", core.cycles);
            text += &format!("ticks={}\n", core.sums.ticks());
            text += &format!("retired={}\n", core.retired);
            text += &format!("flags={:X}\n", core.flags);
            for (name, value) in core.r.iter().enumerate() {
                text += &format!("r{name}={value:08X}\n");
            }
        }
        text
    }
}
