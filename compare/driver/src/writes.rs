//! Words that the owner of the memory puts where the core has fetched others.

use crate::{dense, images};
use interpreter::assembler::*;
use interpreter::programs::{self, Program};
use interpreter::random::Random;

/// An image that goes on for long, as most do even when a word of them is changed.
pub fn image(random: &mut Random) -> Program {
    match random.below(8) {
        0 => images::image(random.pick(&images::NAMES)).expect("a timed image"),
        1 => dense::image(random),
        _ => {
            let words = random.pick(&[16, 32, 64, 64, 128, 256]);
            programs::lively(random, words, 1000)
        }
    }
}

/// A word for the place of `old`; `elsewhere` is another one of the memory.
pub fn word(random: &mut Random, old: u32, elsewhere: u32) -> u32 {
    match random.below(13) {
        0 => old,
        1 | 2 => on(random.below(16), old),
        3 => old ^ 1 << random.below(32),
        4..=6 => programs::instruction(random),
        7 | 8 => elsewhere,
        9 => branch(random.below(24) as i32 - 12),
        10 => images::twin(old).unwrap_or(on(NEVER, old)),
        11 => programs::any_multiplication(random),
        _ => random.pick(&[0, SWI, u32::MAX]),
    }
}
