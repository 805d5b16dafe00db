//! Block transfers about both ends of the memory and about the words fetched ahead: what stops both
//! machines, held to the interpreter's walk as well.

use crate::comparison::{Checked, Compared, Comparison, Place};
use crate::difference::show;
use crate::pair::Pair;
use interpreter::arm::{decode, Instruction};
use interpreter::assembler::*;
use interpreter::pipeline::Core;
use interpreter::plain::Plain;
use interpreter::programs::Program;
use interpreter::walk::walk;

const LENGTH: u32 = 64;

const BASE: u32 = 13;

/// One register, few, sparse ones, fifteen and sixteen, with the base and without it.
const LISTS: [u32; 16] = [
    0x0001, 0x0080, 0x2000, 0x4000, 0x8000, 0x0003, 0x8001, 0xA001, 0x0185, 0x5555, 0xAAAA, 0x0FF0,
    0xE00F, 0x7FFF, 0xFFFE, 0xFFFF,
];

/// Where the block stands: at the first word, in the middle, and with A+8 or A+4 past the end.
const PLACES: [u32; 5] = [0x00, 0x18, 0x34, 0x38, 0x3C];

/// The cycles before a start's first step 1.
const START: u64 = 2;

pub fn all(comparison: &mut Comparison) {
    let words: Vec<u32> = forms()
        .flat_map(|bits| LISTS.map(|list| block(bits, BASE, list)))
        .collect();
    comparison.begin("stops of blocks", words.len() as u64, "blocks");
    for (index, &word) in words.iter().enumerate() {
        for a in PLACES {
            for base in bases() {
                one(comparison, word, a, base);
            }
        }
        comparison.reached(index as u64 + 1);
    }
}

/// Loads and stores in each mode, with W and without it.
fn forms() -> impl Iterator<Item = u32> {
    let bits = [LOAD, UP, BEFORE, W];
    (0..16).map(move |form| (0..4).map(|k| bits[k] * (form >> k & 1)).sum())
}

/// Every word from as far below the memory as a block reaches to as far above it, past 2^32 too, the
/// low bits by turns; and some that are far from it.
fn bases() -> impl Iterator<Item = u32> {
    let near = (-80..=160).step_by(4).zip((0..4).cycle());
    near.map(|(base, low): (i32, u32)| base as u32 | low)
        .chain([0x03FF_FFFC, 0x0400_0000, 0x7FFF_FFF8, 0x8000_0000])
}

fn one(comparison: &mut Comparison, word: u32, a: u32, base: u32) {
    let place = Place::Within(format!("block {word:08X} at {a:X}, base {base:X}"));
    let program = image(word, a, base);
    let checked = run::<Core>(comparison, &program, START).map(|_| ());
    comparison.check_call(checked, &place, &program);
    match run::<Plain>(comparison, &program, 0) {
        Ok(answer) => {
            let wanted = walked(word, &program);
            if answer != wanted {
                let text = format!("answer {answer}, by the walk {wanted}\n{}", show(&program));
                comparison.differs(&place, &text);
            }
        }
        Err(difference) => comparison.check_call(Err(difference), &place, &program),
    }
}

/// The block among words that do nothing.
fn image(word: u32, a: u32, base: u32) -> Program {
    let mut words = vec![mov(0, plain(0)); LENGTH as usize / 4];
    words[a as usize / 4] = word;
    let mut r = [0; 15];
    for (name, register) in (0..).zip(&mut r) {
        *register = 0x0101_0101 * name;
    }
    r[BASE as usize] = base;
    Program {
        words,
        r,
        flags: 6,
        entry: a,
    }
}

/// Past what a start needs first, and then on: what the next call of 1 answers.
fn run<M: Compared>(comparison: &mut Comparison, program: &Program, first: u64) -> Checked<u32> {
    let memory = program.memory();
    let counts = M::counts(comparison);
    counts.images += 1;
    let (answer, mut pair) = Pair::<M>::start(program.r, program.flags, program.entry, &memory)?;
    counts.started(answer);
    let mut answers = Vec::new();
    for budget in [first, 1, 1, 20] {
        counts.sees(&pair, budget);
        let (answer, used) = pair.run(memory.len(), budget)?;
        counts.saw(&pair, answer, used, budget);
        answers.push(answer);
    }
    Ok(answers[1])
}

/// The stop that the interpreter's walk finds.
fn walked(word: u32, program: &Program) -> u32 {
    match decode(word) {
        Instruction::Block(block) => walk(&block, &program.r, program.entry, LENGTH).stop,
        other => panic!("no block: {other:?}"),
    }
}
