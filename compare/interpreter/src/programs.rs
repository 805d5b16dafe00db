//! Random instructions, registers and images.

use crate::answers::NO_WORD;
use crate::arm::Shift;
use crate::assembler::*;
use crate::memory;
use crate::plain::Plain;
use crate::random::Random;

const SHIFTS: [Shift; 4] = [Shift::Lsl, Shift::Lsr, Shift::Asr, Shift::Ror];

/// An image with the registers, flags and entry to start it with.
#[derive(Clone, Debug)]
pub struct Program {
    pub words: Vec<u32>,
    pub r: [u32; 15],
    pub flags: u32,
    pub entry: u32,
}

impl Program {
    /// The memory, as long as the words.
    pub fn memory(&self) -> Vec<u8> {
        self.words
            .iter()
            .flat_map(|word| word.to_le_bytes())
            .collect()
    }
}

/// A word of a class that runs and meets no rule of 23.
pub fn instruction(random: &mut Random) -> u32 {
    let word = match random.below(23) {
        0..=9 => processing(random),
        10..=13 => transfer(random),
        14..=17 => block_transfer(random),
        18..=19 => branch_about(random),
        _ => multiplication(random),
    };
    on_some(random, word)
}

/// The word under a condition that is mostly always.
fn on_some(random: &mut Random, word: u32) -> u32 {
    let condition = if random.chance(2, 3) {
        ALWAYS
    } else {
        random.below(16)
    };
    on(condition, word)
}

fn processing(random: &mut Random) -> u32 {
    let operation = random.below(16);
    let rd = if random.chance(1, 30) {
        PC
    } else {
        random.below(15)
    };
    let rn = random.below(16);
    let operand = match random.below(3) {
        0 => rotated(
            random.pick(&[0, 0, 0, 1, 2, 4, 8, 12, 15]),
            random.below(256),
        ),
        1 => by_amount(
            random.below(16),
            random.pick(&SHIFTS),
            random.pick(&[0, 0, 0, 1, 2, 3, 8, 16, 30, 31]),
        ),
        _ => by_register(random.below(16), random.pick(&SHIFTS), random.below(15)),
    };
    if (TST..=CMN).contains(&operation) || random.chance(1, 2) {
        ops(operation, rd, rn, operand)
    } else {
        op(operation, rd, rn, operand)
    }
}

fn transfer(random: &mut Random) -> u32 {
    let mut bits = random.pick(&[0, BEFORE]) | random.pick(&[0, UP, UP]) | random.pick(&[0, LOAD]);
    bits |= random.pick(&[0, W]) | random.pick(&[0, BYTE]);
    let rn = random.below(16);
    if rn == PC {
        bits = (bits | BEFORE) & !W;
    }
    let rd = if bits & BYTE == 0 && random.chance(1, 8) {
        PC
    } else {
        random.below(15)
    };
    if random.chance(2, 3) {
        single(
            bits,
            rd,
            rn,
            random.pick(&[0, 1, 2, 3, 4, 8, 12, 16, 33, 64, 100]),
        )
    } else {
        let amount = random.pick(&[0, 0, 1, 2, 3, 30, 31]);
        single_by(
            bits,
            rd,
            rn,
            by_amount(random.below(15), random.pick(&SHIFTS), amount),
        )
    }
}

fn block_transfer(random: &mut Random) -> u32 {
    let bits = random.pick(&[0, BEFORE])
        | random.pick(&[0, UP])
        | random.pick(&[0, LOAD])
        | random.pick(&[0, W]);
    let few = random.word() & random.word();
    let mut list = if random.chance(1, 6) {
        random.word()
    } else {
        few
    } & 0xFFFF;
    if random.chance(3, 4) {
        list &= 0x7FFF;
    }
    if list == 0 {
        list = 1 << random.below(15);
    }
    block(bits, random.below(15), list)
}

fn branch_about(random: &mut Random) -> u32 {
    let offset = random.below(24) as i32 - 12;
    if random.chance(1, 3) {
        branch_link(offset)
    } else {
        branch(offset)
    }
}

/// A multiply that meets no rule of 23: Rm is another register than Rd.
pub fn multiplication(random: &mut Random) -> u32 {
    let bits = random.pick(&[0, ACCUMULATE]) | random.pick(&[0, SETS]);
    let rd = random.below(15);
    let rm = (rd + 1 + random.below(14)) % 15;
    multiply(bits, rd, rm, random.below(15), random.below(15))
}

/// A multiply of any fields, most of which meet a rule of 23: Rm is Rd, or some field is 15.
pub fn any_multiplication(random: &mut Random) -> u32 {
    let word = multiplication(random);
    let word = match random.below(4) {
        0 => word & !15 | word >> 16 & 15,
        1 => word | 15 << random.pick(&[0, 8, 12, 16]),
        2 => word & 0xFFF0_00F0 | random.word() & 0x000F_FF0F,
        _ => word,
    };
    on_some(random, word)
}

/// Mostly small numbers, which address memories of up to `length` bytes.
pub fn registers(random: &mut Random, length: u32) -> [u32; 15] {
    let mut r = [0; 15];
    for value in &mut r {
        *value = match random.below(9) {
            0 | 1 => of_any_size(random),
            2 => random.pick(&[0, 1, 0x7FFF_FFFF, 0x8000_0000, 0xFFFF_FFFF, 0x8000_0001]),
            3 => random.below(40),
            4 => random.below(length),
            _ => random.below(length) & !3,
        };
    }
    r
}

/// A number of 1 to 32 bits, each as likely, so that as Rs it gives a multiply any of its lengths.
pub fn of_any_size(random: &mut Random) -> u32 {
    random.word() >> random.below(32)
}

/// A program of random instructions, as likely as not to stop soon.
pub fn program(random: &mut Random, words: u32) -> Program {
    Program {
        words: (0..words).map(|_| instruction(random)).collect(),
        r: registers(random, 4 * words),
        flags: random.below(16),
        entry: 4 * random.below(words),
    }
}

/// A program of words of any kind, multiplies that meet 23 among them.
pub fn noise(random: &mut Random, words: u32) -> Program {
    let mut program = program(random, words);
    for word in &mut program.words {
        if random.chance(1, 4) {
            *word = random.word();
        } else if random.chance(1, 16) {
            *word = any_multiplication(random);
        }
    }
    program
}

/// A random program that was mended, where it stopped, until it does `count` instructions or the
/// tries are used up.
pub fn lively(random: &mut Random, words: u32, count: u64) -> Program {
    let mut program = program(random, words);
    let last = words as usize - 1;
    program.words[last] = branch_back(random, words);
    for _ in 0..1000 {
        let Some((culprit, plain)) = where_it_stops(&program, count) else {
            break;
        };
        program.words[culprit] = if culprit == last {
            branch_back(random, words)
        } else if random.chance(1, 2) {
            transfer_within(random, &plain)
        } else {
            instruction(random)
        };
    }
    program
}

/// From the last of so many words to any of them.
fn branch_back(random: &mut Random, words: u32) -> u32 {
    branch(-(random.below(words) as i32) - 2)
}

/// A transfer whose base is in memory, as the registers are now; any instruction if there is none.
fn transfer_within(random: &mut Random, plain: &Plain) -> u32 {
    let near: Vec<u32> = (0..15)
        .filter(|&name| plain.r[name as usize] < plain.length)
        .collect();
    if near.is_empty() {
        return instruction(random);
    }
    let word = if random.chance(1, 2) {
        transfer(random)
    } else {
        block_transfer(random)
    };
    word & !(15 << 16) | random.pick(&near) << 16
}

/// The index of the word to blame, if the program stops within `count` instructions, and the
/// machine then.
fn where_it_stops(program: &Program, count: u64) -> Option<(usize, Plain)> {
    let mut memory = program.memory();
    let (_, mut plain) = Plain::start(program.r, program.flags, program.entry, &memory);
    let mut previous = plain.a;
    for _ in 0..count {
        let at = plain.a;
        let stop = plain.step(&mut memory);
        if stop != 0 {
            let culprit = if stop == NO_WORD { previous } else { at };
            return Some((culprit as usize / 4, plain));
        }
        previous = at;
    }
    None
}

/// How many different words a program does within `count` instructions.
pub fn reach(program: &Program, count: u64) -> usize {
    let mut memory = program.memory();
    let mut seen = vec![false; program.words.len()];
    let (_, mut plain) = Plain::start(program.r, program.flags, program.entry, &memory);
    for _ in 0..count {
        if memory::inside(plain.a, memory.len()) {
            seen[plain.a as usize / 4] = true;
        }
        if plain.step(&mut memory) != 0 {
            break;
        }
    }
    seen.into_iter().filter(|&it| it).count()
}
