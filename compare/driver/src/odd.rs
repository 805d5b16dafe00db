//! Odd values for the fields of a record.

use crate::archive::*;
use crate::odd_sums;
use interpreter::assembler::{on, ALWAYS, NEVER};
use interpreter::pipeline::Core;
use interpreter::plain::Plain;
use interpreter::programs;
use interpreter::random::Random;

/// Which words of an array mean what, as far as odd values go.
pub trait Fields {
    /// Fields that together decide whether a record is good.
    const TOGETHER: &'static [usize];

    /// Sets of fields that go together, made up for what an array holds.
    fn made_up(random: &mut Random, array: &[u32]) -> Vec<Vec<(usize, u32)>>;
}

impl Fields for Core {
    const TOGETHER: &'static [usize] = &[
        CORE_PC,
        CORE_FLAGS,
        CORE_IR1,
        CORE_IR2,
        CORE_IX,
        IX_VALID,
        CORE_PHASE,
        CORE_ADDRESS,
        CORE_DATUM,
        CORE_BASE,
        CORE_CYCLES,
        CORE_RETIRED,
        CORE_STOP,
        CORE_SUM_N,
        CORE_SUM_S,
        CORE_SUM_I,
    ];

    /// The three sums, and refills.
    fn made_up(random: &mut Random, array: &[u32]) -> Vec<Vec<(usize, u32)>> {
        let cycles = count(array, CORE_CYCLES);
        let mut sets = Vec::new();
        for _ in 0..3 {
            sets.push(odd_sums::fields(odd_sums::drawn(random, cycles)));
            sets.push(refill(random, cycles));
        }
        sets
    }
}

impl Fields for Plain {
    const TOGETHER: &'static [usize] = &[15, 16, 17, 18];

    fn made_up(_: &mut Random, _: &[u32]) -> Vec<Vec<(usize, u32)>> {
        Vec::new()
    }
}

/// A count of 64 bits.
pub fn count(array: &[u32], place: usize) -> u64 {
    u64::from(array[place]) | u64::from(array[place + 1]) << 32
}

/// A refill of some word or of none, as often as not with cycles enough for whatever it adds to the
/// sums.
fn refill(random: &mut Random, cycles: u64) -> Vec<(usize, u32)> {
    let (word, held) = if random.chance(1, 8) {
        (0, 0)
    } else {
        (refilled(random), 1)
    };
    let mut set = vec![
        (CORE_PHASE, 1 + random.below(2)),
        (CORE_IX, word),
        (IX_VALID, held),
    ];
    if random.chance(1, 2) {
        set.push((CORE_FLAGS, random.below(16)));
    }
    if random.chance(1, 2) {
        set.extend(odd_sums::long(CORE_CYCLES, cycles.saturating_add(40)));
    }
    set
}

/// A word of any class, of which many name R15 where it would be written.
pub fn refilled(random: &mut Random) -> u32 {
    let word = match random.below(8) {
        0 => random.word(),
        1 => programs::any_multiplication(random),
        2 | 3 => programs::instruction(random),
        // Its class is that of bits 27..25.
        _ => random.word() & !(7 << 25) | random.below(6) << 25,
    };
    let word = word | random.pick(&[0, 15 << 12]);
    on(random.pick(&[ALWAYS, ALWAYS, word >> 28, NEVER]), word)
}

const IR1_VALID: usize = CORE_IR1 + 1;
const IR2_VALID: usize = CORE_IR2 + 1;
const IX_VALID: usize = CORE_IX + 1;

const ODD: [u32; 30] = [
    0,
    1,
    2,
    3,
    4,
    5,
    6,
    7,
    8,
    12,
    15,
    16,
    17,
    18,
    19,
    20,
    21,
    22,
    23,
    24,
    25,
    26,
    0x100,
    0x101,
    0x03FF_FFFC,
    0x0400_0000,
    0x7FFF_FFFF,
    0x8000_0000,
    0xFFFF_FFFC,
    0xFFFF_FFFF,
];

/// A value for a field that holds `old`, in a record of a memory of `length` bytes.
pub fn value(random: &mut Random, old: u32, length: u32) -> u32 {
    match random.below(13) {
        0..=3 => random.pick(&ODD),
        4 => old.wrapping_add(1),
        5 => old.wrapping_sub(1),
        6 => old ^ 1 << random.below(32),
        7 => random.word(),
        8 => random.below(length.max(1)) & !3,
        9 => length.wrapping_add(random.below(17)).wrapping_sub(8),
        10 => random.below(length.max(1)),
        11 => programs::of_any_size(random),
        _ => programs::instruction(random),
    }
}

/// A core's phase, word, address and the like, made up together, as `field` goes: most are good.
pub fn likely(random: &mut Random, field: usize, array: &[u32], length: u32) -> u32 {
    let old = array[field];
    match field {
        CORE_PC => random.below(length.max(1)) & !3,
        CORE_FLAGS => random.below(16),
        CORE_IR1 | CORE_IR2 => programs::instruction(random),
        CORE_IX if random.chance(1, 4) => programs::any_multiplication(random),
        CORE_IX => programs::instruction(random),
        IR1_VALID | IR2_VALID | IX_VALID => 1,
        // Half of them in the first steps; 18 is the last of a multiply, 19 of a block load.
        CORE_PHASE if random.chance(1, 2) => random.pick(&[0, 1, 2, 3, 3, 3, 4, 4]),
        CORE_PHASE => random.below(17) + 4,
        CORE_ADDRESS => random.below(length.max(1)),
        // No fewer than the sums.
        CORE_CYCLES if random.chance(1, 2) => old.wrapping_add(random.below(60)),
        CORE_SUM_N | CORE_SUM_S | CORE_SUM_I => {
            // What the other two leave of the cycles, now and then one more.
            let sums = odd_sums::of(array).into_iter();
            let left = sums.fold(count(array, CORE_CYCLES), u64::wrapping_sub);
            let whole = left.wrapping_add(count(array, field));
            whole.wrapping_add(random.pick(&[0, 0, 0, 1])) as u32
        }
        _ => value(random, old, length),
    }
}
