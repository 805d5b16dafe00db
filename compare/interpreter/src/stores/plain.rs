//! The plain machine's stores: each instruction's, by what the paper says that it means, at the sum
//! of all durations before it and its own step.

use super::Store;
use crate::arm::{decode, passes, shift_by_amount, Block, Instruction, Offset, Single, C};
use crate::durations::{duration, ticks};
use crate::memory;
use crate::plain::Plain;

/// What a start's refills take.
const START_CYCLES: u64 = 2;
const START_TICKS: u64 = 3;

/// The stores whose cycle does not pass `cycles`, from a machine just started, in the order in
/// which they are written. The machine ends where it stopped, or behind the last instruction that
/// began in time.
pub fn of_plain(plain: &mut Plain, memory: &mut [u8], cycles: u64) -> Vec<Store> {
    let mut stores = Vec::new();
    let (mut cycle, mut tick) = (START_CYCLES, START_TICKS);
    while cycle < cycles {
        let Some(word) = memory::fetch(memory, plain.a) else {
            break;
        };
        let (before, flags) = (plain.clone(), plain.flags);
        if plain.step(memory) != 0 {
            break;
        }
        // Word j, from 1, is written in step j + 1: one tick after another behind the first's four.
        for (j, (address, bytes)) in (1..).zip(stored(&before, word)) {
            stores.push(Store {
                cycle: cycle + j + 1,
                tick: tick + 3 + j,
                address,
                bytes,
            });
        }
        cycle += duration(word, flags, &before.r);
        tick += ticks(word, flags, &before.r);
    }
    stores.retain(|store| store.cycle <= cycles);
    stores
}

/// Where the word stores, in the order in which it does, and how many bytes each time. It stops
/// nowhere.
fn stored(plain: &Plain, word: u32) -> Vec<(u32, u32)> {
    if !passes(word >> 28, plain.flags) {
        return Vec::new();
    }
    match decode(word) {
        Instruction::Single(it) if !it.load => {
            let address = place(plain, &it);
            vec![if it.byte {
                (address, 1)
            } else {
                (address / 4 * 4, 4)
            }]
        }
        Instruction::Block(it) if !it.load => words(plain, &it),
        _ => Vec::new(),
    }
}

fn place(plain: &Plain, it: &Single) -> u32 {
    let base = if it.rn == 15 {
        plain.a + 8
    } else {
        plain.r[it.rn]
    };
    if !it.before {
        return base;
    }
    let offset = match it.offset {
        Offset::Number(number) => number,
        Offset::Shifted { rm, shift, amount } => {
            shift_by_amount(shift, amount, plain.r[rm], plain.flags & C != 0).value
        }
    };
    if it.up {
        base.wrapping_add(offset)
    } else {
        base.wrapping_sub(offset)
    }
}

/// "U=1: base, P=1 base+4; U=0: base-4n+4, P=1 base-4n", lowest first.
fn words(plain: &Plain, it: &Block) -> Vec<(u32, u32)> {
    let n = it.names().len() as u32;
    let base = plain.r[it.rn];
    let lowest = match (it.up, it.before) {
        (true, false) => base,
        (true, true) => base.wrapping_add(4),
        (false, false) => base.wrapping_sub(4 * n).wrapping_add(4),
        (false, true) => base.wrapping_sub(4 * n),
    };
    (0..n).map(|j| (lowest / 4 * 4 + 4 * j, 4)).collect()
}
