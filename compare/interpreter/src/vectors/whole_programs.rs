//! Random programs of valid instructions.

use super::case::Case;
use crate::programs::{lively, reach, Program};
use crate::random::Random;

const PROGRAMS: usize = 100;
const WORDS: u32 = 64;

/// Programs that get somewhere: a tenth as they came, the others only if they do many words.
pub fn cases() -> Vec<Case> {
    let mut random = Random::new(2024);
    let mut cases = Vec::new();
    while cases.len() < PROGRAMS {
        let count = 40 + random.below(161);
        let program = lively(&mut random, WORDS, u64::from(count));
        let least = if cases.len() % 10 == 0 { 4 } else { 20 };
        if reach(&program, u64::from(count)) >= least {
            cases.push(case(cases.len(), program, count));
        }
    }
    cases
}

fn case(index: usize, program: Program, count: u32) -> Case {
    Case {
        r: program.r,
        ..Case::new(format!("random program {index}"), &program.words)
    }
    .flags(program.flags)
    .entry(program.entry)
    .count(count)
}
