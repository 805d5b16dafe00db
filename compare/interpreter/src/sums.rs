//! The core's cycles by what the slot memory does in them, from which its ticks are counted. They
//! are added up where an instruction retires: what its own steps came to, and the refills.

use crate::arm::{decode_inline, Instruction, Operand};

/// Non-sequential, sequential and internal cycles.
#[derive(Clone, Copy, Debug, Default, PartialEq, Eq)]
pub struct Sums {
    pub n: u64,
    pub s: u64,
    pub i: u64,
}

/// Both refills, whoever needs them: a start, a branch, any other stored counter.
pub const REFILLS: Sums = Sums { n: 1, s: 1, i: 0 };

impl Sums {
    pub fn add(&mut self, more: Sums) {
        self.n += more.n;
        self.s += more.s;
        self.i += more.i;
    }

    /// All three: a record may hold any numbers, so that this takes more than 64 bits.
    pub fn together(&self) -> u128 {
        [self.n, self.s, self.i].map(u128::from).iter().sum()
    }

    /// A non-sequential access takes two. The sums are those of a good record.
    pub fn ticks(&self) -> u64 {
        2 * self.n + self.s + self.i
    }
}

/// Own steps that move nothing: a fetch, and so many internal cycles.
pub fn alone(internal: u32) -> Sums {
    Sums {
        n: 0,
        s: 1,
        i: internal.into(),
    }
}

/// Own steps that load so many words, at least one.
pub fn loading(words: u32) -> Sums {
    Sums {
        n: 1,
        s: words.into(),
        i: 1,
    }
}

/// Own steps that store so many words, at least one.
pub fn storing(words: u32) -> Sums {
    Sums {
        n: 2,
        s: (words - 1).into(),
        i: 0,
    }
}

/// Own steps, gone by now, of the word that stored the counter.
pub fn before_refills(word: u32) -> Sums {
    match decode_inline(word) {
        Instruction::Processing(it) => {
            alone(matches!(it.operand, Operand::ByRegister { .. }).into())
        }
        Instruction::Single(_) => loading(1),
        Instruction::Block(it) => loading(it.list.count_ones()),
        Instruction::Branch(_) => alone(0),
        _ => unreachable!("a word that can't store the counter has no refills"),
    }
}
