//! The paper's tables of durations and ticks, for checks of the pipeline. Neither machine uses them.

use crate::arm::{decode, passes, Instruction, Operand};

/// The cycles of a word that doesn't stop, under the flags and registers it meets: its own steps,
/// plus 2 if the counter is stored.
pub fn duration(word: u32, flags: u32, r: &[u32; 15]) -> u64 {
    if !passes(word >> 28, flags) {
        return 1;
    }
    match decode(word) {
        Instruction::Processing(it) => {
            let own = if matches!(it.operand, Operand::ByRegister { .. }) {
                2
            } else {
                1
            };
            own + refills(it.rd == 15 && !it.only_compares())
        }
        Instruction::Single(it) if it.load => 3 + refills(it.rd == 15),
        Instruction::Single(_) => 2,
        Instruction::Block(it) => {
            let n = u64::from(it.list.count_ones());
            if it.load {
                n + 2 + refills(it.list >> 15 == 1)
            } else {
                n + 1
            }
        }
        Instruction::Branch(_) => 1 + refills(true),
        Instruction::Multiply(it) => 1 + m(r[it.rs]),
        Instruction::Other => panic!("an Other word has no duration"),
    }
}

/// Its ticks by request 3's table, as numbers: two for each N, one for each S and I.
pub fn ticks(word: u32, flags: u32, r: &[u32; 15]) -> u64 {
    if !passes(word >> 28, flags) {
        return 1;
    }
    match decode(word) {
        Instruction::Processing(it) => {
            let own = if matches!(it.operand, Operand::ByRegister { .. }) {
                2
            } else {
                1
            };
            own + refill_ticks(it.rd == 15 && !it.only_compares())
        }
        Instruction::Single(it) if it.load => 4 + refill_ticks(it.rd == 15),
        Instruction::Single(_) => 4,
        Instruction::Block(it) => {
            let n = u64::from(it.list.count_ones());
            if it.load {
                n + 3 + refill_ticks(it.list >> 15 == 1)
            } else {
                n + 3
            }
        }
        Instruction::Branch(_) => 1 + refill_ticks(true),
        Instruction::Multiply(it) => 1 + m(r[it.rs]),
        Instruction::Other => panic!("an Other word has no ticks"),
    }
}

fn refills(stored: bool) -> u64 {
    if stored {
        2
    } else {
        0
    }
}

/// S + N.
fn refill_ticks(stored: bool) -> u64 {
    if stored {
        3
    } else {
        0
    }
}

/// The least and the greatest Rs of a multiply's m, which is 1 to 16.
pub fn ends(m: u32) -> [u32; 2] {
    match m {
        1 => [0, 1],
        16 => [1 << 29, u32::MAX],
        _ => [1 << (2 * m - 3), (1 << (2 * m - 1)) - 1],
    }
}

fn m(rs: u32) -> u64 {
    let takes = |m: &u32| {
        let [least, greatest] = ends(*m);
        least <= rs && rs <= greatest
    };
    (1..=16).find(takes).expect("an m for every Rs").into()
}
