//! Random programs by lists of many calls, runs and settles.

use super::case::{Case, ENTRY, FLAGS};
use crate::programs::{lively, reach, Program};
use crate::random::Random;

const PROGRAMS: usize = 50;
const CALLS: usize = 16;

/// Programs that get somewhere.
pub fn cases() -> Vec<Case> {
    let mut random = Random::new(2025);
    let mut cases = Vec::new();
    while cases.len() < PROGRAMS {
        let words = random.pick(&[8, 16, 16, 32, 32, 64]);
        let program = lively(&mut random, words, 200);
        if reach(&program, 60) >= words as usize / 3 {
            let case = case(cases.len(), &program);
            cases.push(called(case, &mut random));
        }
    }
    cases
}

fn case(index: usize, program: &Program) -> Case {
    let mut case = Case::new(format!("mixed calls, random program {index}"), &[]);
    case.core[..15].copy_from_slice(&program.r);
    case.at(0, &program.words)
        .length(4 * program.words.len() as u32)
        .field(ENTRY, program.entry)
        .field(FLAGS, program.flags)
}

/// Half of the calls are settles, now and then on a memory that is not the core's.
fn called(mut case: Case, random: &mut Random) -> Case {
    let length = case.length;
    for _ in 0..CALLS {
        let lent = if random.chance(1, 30) {
            random.pick(&[0, length - 4, length + 4])
        } else {
            length
        };
        case = match random.below(8) {
            0..=3 => case.settle_on(lent),
            4 => case.run_on(lent, random.below(3)),
            5 | 6 => case.run_on(lent, 1 + random.below(24)),
            _ => case.run_on(lent, random.below(90)),
        };
    }
    case
}
