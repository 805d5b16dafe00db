//! Random images of what `interpreter::programs` seldom makes: block transfers with long lists, and
//! multiplies of every length.

use interpreter::arm::Shift;
use interpreter::assembler::*;
use interpreter::programs::{self, Program};
use interpreter::random::Random;

const WORDS: u32 = 256;
const CODE: u32 = 32;

/// An image of one of the two.
pub fn image(random: &mut Random) -> Program {
    if random.chance(1, 2) {
        transfers(random)
    } else {
        multiplies(random)
    }
}

/// Code of block transfers and a few others, data of addresses inside, so that a loaded register
/// is a base again, and a branch back at the end.
fn transfers(random: &mut Random) -> Program {
    let mut words: Vec<u32> = (0..WORDS).map(|_| address(random)).collect();
    for word in &mut words[..CODE as usize] {
        *word = if random.chance(1, 4) {
            programs::instruction(random)
        } else {
            transfer(random)
        };
    }
    words[CODE as usize - 1] = branch(-(random.below(CODE) as i32) - 2);
    words[WORDS as usize - 1] = branch(-(WORDS as i32) - 1);
    let mut r = [0; 15];
    for register in &mut r {
        *register = address(random);
    }
    Program {
        words,
        r,
        flags: random.below(16),
        entry: 4 * random.below(CODE),
    }
}

/// Far enough from both ends of the memory and from the code, mostly a multiple of 4.
fn address(random: &mut Random) -> u32 {
    let middle = 0x100 + 4 * random.below(0x80);
    if random.chance(1, 16) {
        middle + random.below(4)
    } else {
        middle
    }
}

fn transfer(random: &mut Random) -> u32 {
    let bits = random.pick(&[0, BEFORE])
        | random.pick(&[0, UP])
        | random.pick(&[0, LOAD])
        | random.pick(&[0, W]);
    let mut list = (random.word() | random.word() | random.word()) & 0xFFFF;
    if random.chance(1, 8) {
        list = 0xFFFF;
    }
    if random.chance(1, 2) {
        list &= 0x7FFF;
    }
    let word = block(bits, random.below(15), list);
    if random.chance(7, 8) {
        word
    } else {
        on(random.below(16), word)
    }
}

/// Code of multiplies, of loads and shifts that make their registers any size again, and of a few
/// others, data of all sizes, and a branch back at the end.
fn multiplies(random: &mut Random) -> Program {
    let mut words: Vec<u32> = (0..WORDS).map(|_| programs::of_any_size(random)).collect();
    for word in &mut words[..CODE as usize] {
        *word = match random.below(32) {
            0..=17 => programs::multiplication(random),
            18 => programs::any_multiplication(random),
            19..=23 => load(random),
            24..=27 => mov(
                random.below(15),
                by_amount(random.below(15), Shift::Lsr, random.below(32)),
            ),
            28..=29 => ops(
                random.below(8),
                random.below(15),
                random.below(15),
                plain(random.below(15)),
            ),
            _ => programs::instruction(random),
        };
        if random.chance(1, 8) {
            *word = on(random.below(16), *word);
        }
    }
    words[CODE as usize - 1] = branch(-(random.below(CODE) as i32) - 2);
    let mut r = [0; 15];
    for register in &mut r {
        *register = programs::of_any_size(random);
    }
    Program {
        words,
        r,
        flags: random.below(16),
        entry: 4 * random.below(CODE),
    }
}

/// A load of data by R15, which is inside wherever in the code it stands.
fn load(random: &mut Random) -> u32 {
    ldr(
        random.below(15),
        PC,
        4 * (CODE + random.below(WORDS - 2 * CODE)),
    )
}
