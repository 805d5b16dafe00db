//! The paper's table of what a retirement adds to the sums, by class, and the sums that it gives for
//! what the plain machine does. The core's come from its steps.

use interpreter::arm::{decode, passes, Instruction, Operand};
use interpreter::durations::ends;
use interpreter::sums::Sums;

/// "start S+N"
pub const START: Sums = sums([1, 1, 0]);

pub const fn sums([n, s, i]: [u64; 3]) -> Sums {
    Sums { n, s, i }
}

pub fn plus(one: Sums, two: Sums) -> Sums {
    sums([one.n + two.n, one.s + two.s, one.i + two.i])
}

/// What the word adds under the flags and registers that it meets.
pub fn added(word: u32, flags: u32, r: &[u32; 15]) -> Sums {
    if passes(word >> 28, flags) {
        added_by_class(word, r)
    } else {
        sums([0, 1, 0])
    }
}

/// The same where its condition is known to pass.
pub fn added_by_class(word: u32, r: &[u32; 15]) -> Sums {
    sums(match decode(word) {
        Instruction::Processing(it) => {
            let stored = it.rd == 15 && !it.only_compares();
            match it.operand {
                Operand::ByRegister { .. } => and_refills([0, 1, 1], stored),
                _ => and_refills([0, 1, 0], stored),
            }
        }
        Instruction::Single(it) if it.load => and_refills([1, 1, 1], it.rd == 15),
        Instruction::Single(_) => [2, 0, 0],
        Instruction::Block(it) => {
            let n = u64::from(it.list.count_ones());
            if it.load {
                and_refills([1, n, 1], it.list & 1 << 15 != 0)
            } else {
                [2, n - 1, 0]
            }
        }
        Instruction::Branch(_) => [1, 2, 0],
        Instruction::Multiply(it) => [0, 1, m(r[it.rs])],
        Instruction::Other => panic!("an Other word adds nothing"),
    })
}

/// "any other stored counter S+N more"
fn and_refills([n, s, i]: [u64; 3], stored: bool) -> [u64; 3] {
    if stored {
        [n + 1, s + 1, i]
    } else {
        [n, s, i]
    }
}

fn m(rs: u32) -> u64 {
    let takes = |m: &u32| {
        let [least, greatest] = ends(*m);
        (least..=greatest).contains(&rs)
    };
    (1..=16).find(takes).expect("an m for every Rs").into()
}
