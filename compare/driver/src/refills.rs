//! Refills of words that can store the counter and of words that can't, which no core is in.

use crate::archive::*;
use crate::comparison::{Checked, Comparison, Place};
use crate::odd;
use crate::odd_sums::long;
use crate::pair::Pair;
use crate::settles::{image, run, tampered, AT_DATA, AT_TARGET, RS, TURN};
use interpreter::arm::Shift;
use interpreter::assembler::*;
use interpreter::pipeline::Core;
use interpreter::programs::Program;
use interpreter::random::Random;

/// Cycles enough for whatever a word adds to the sums.
const MANY: u64 = 50;

const RANDOM_WORDS: u64 = 200_000;

pub fn all(comparison: &mut Comparison, seed: u64) {
    let words = words();
    let total = words.len() as u64 + RANDOM_WORDS;
    comparison.begin("refills", total, "words");
    let program = image(mov(15, plain(AT_TARGET)), 0);
    let checked = of_all(comparison, &program, &words, seed);
    comparison.check_call(checked, &Place::Within("refills".to_string()), &program);
}

fn of_all(comparison: &mut Comparison, program: &Program, words: &[u32], seed: u64) -> Checked<()> {
    let moments = moments(comparison, program)?;
    for pair in &moments {
        of_none(comparison, pair)?;
    }
    let mut done = 0;
    for &word in words {
        let place = Place::Within(format!("refills of {word:08X}"));
        let checked = of_one(comparison, &moments, word);
        comparison.check_call(checked, &place, program);
        done += 1;
        comparison.reached(done);
    }
    let mut random = Random::new(seed);
    for _ in 0..RANDOM_WORDS {
        let word = odd::refilled(&mut random);
        let place = Place::Within(format!("refill of a random word, {word:08X}"));
        let pair = &moments[random.below(moments.len() as u32) as usize];
        let mut fields = refill(word, 1 + random.below(2), MANY);
        fields.push((CORE_FLAGS, random.below(16)));
        let checked = tampered(&mut comparison.counts.core, pair, &fields);
        comparison.check_call(checked, &place, program);
        done += 1;
        comparison.reached(done);
    }
    Ok(())
}

/// A core before both refills of its start, on a boundary, before both refills of a word, and on the
/// next boundary.
fn moments(comparison: &mut Comparison, program: &Program) -> Checked<Vec<Pair<Core>>> {
    let counts = &mut comparison.counts.core;
    let memory = program.memory();
    let (answer, mut pair) = Pair::<Core>::start(program.r, program.flags, program.entry, &memory)?;
    counts.started(answer);
    counts.images += 1;
    let mut moments = Vec::new();
    for _ in 0..6 {
        moments.push(pair.clone());
        run(counts, &mut pair, 1)?;
    }
    Ok(moments)
}

fn refill(word: u32, phase: u32, cycles: u64) -> Vec<(usize, u32)> {
    let mut fields = vec![(CORE_PHASE, phase), (CORE_IX, word), (CORE_IX + 1, 1)];
    fields.extend(long(CORE_CYCLES, cycles));
    fields
}

/// Both refills without a word, as a start's.
fn of_none(comparison: &mut Comparison, pair: &Pair<Core>) -> Checked<()> {
    for phase in [1, 2] {
        let fields = [(CORE_PHASE, phase), (CORE_IX, 0), (CORE_IX + 1, 0)];
        tampered(&mut comparison.counts.core, pair, &fields)?;
    }
    Ok(())
}

/// Both refills of the word at each moment, with the cycles as they are and with many; then under
/// several flags on every condition.
fn of_one(comparison: &mut Comparison, moments: &[Pair<Core>], word: u32) -> Checked<()> {
    let counts = &mut comparison.counts.core;
    for (pair, phase) in moments.iter().flat_map(|pair| [(pair, 1), (pair, 2)]) {
        for cycles in [odd::count(&pair.product, CORE_CYCLES), MANY] {
            tampered(counts, pair, &refill(word, phase, cycles))?;
        }
    }
    for (condition, pair) in (0..16).zip(moments.iter().cycle()) {
        for (flags, phase) in [(0, 1), (5, 2), (10, 1), (15, 2)] {
            let mut fields = refill(on(condition, word), phase, MANY);
            fields.push((CORE_FLAGS, flags));
            tampered(counts, pair, &fields)?;
        }
    }
    Ok(())
}

/// Words that can store the counter, each also with one bit changed, and words that can't.
fn words() -> Vec<u32> {
    let can = to_r15();
    let changed = |&word: &u32| (0..28).map(move |place| word ^ 1 << place);
    let mut words: Vec<u32> = can.iter().flat_map(changed).collect();
    words.extend(can);
    words.extend(not_to_r15());
    words.extend(forbidden());
    words
}

fn to_r15() -> Vec<u32> {
    let mut words = vec![ldr(15, 15, 4), branch(10), branch_link(-2)];
    for operation in (AND..=RSC).chain(ORR..=MVN) {
        words.push(op(operation, 15, 15, number(8)));
        words.push(ops(operation, 15, AT_DATA, by_amount(15, Shift::Asr, 3)));
        words.push(op(operation, 15, 15, by_register(15, Shift::Lsr, TURN)));
    }
    for bits in [0, UP, BEFORE, BEFORE | UP | W] {
        words.push(single(LOAD | bits, 15, AT_DATA, 4));
        words.push(single_by(
            LOAD | bits,
            15,
            AT_DATA,
            by_amount(RS, Shift::Ror, 0),
        ));
        words.push(block(LOAD | bits, AT_DATA, 0x8000));
        words.push(block(LOAD | bits, AT_DATA, 0xFFFF));
    }
    words
}

fn not_to_r15() -> [u32; 14] {
    [
        op(ADD, 14, 15, plain(15)),
        op(TST, 15, 1, number(1)),
        ops(TEQ, 15, 15, plain(15)),
        ops(CMN, 15, 1, by_register(AT_TARGET, Shift::Lsl, TURN)),
        ldr(14, 15, 0),
        str(15, AT_DATA, 0),
        block(LOAD | UP, AT_DATA, 0x7FFF),
        block(STORE | UP, AT_DATA, 0xFFFF),
        mul(5, 3, RS),
        mlas(RS, 3, RS, TURN),
        SWI,
        SWP,
        0,
        u32::MAX,
    ]
}

/// They would write R15 but for a rule of 23.
fn forbidden() -> [u32; 9] {
    [
        mov(15, by_register(AT_TARGET, Shift::Lsl, 15)),
        single(LOAD | UP, 15, 15, 8),
        single(LOAD | UP | BEFORE | W, 15, 15, 8),
        single(LOAD | UP | BYTE, 15, AT_DATA, 8),
        single_by(LOAD | UP | BEFORE, 15, AT_DATA, plain(15)),
        block(LOAD | UP, 15, 0xFFFF),
        block(LOAD | UP | S_BIT, AT_DATA, 0xFFFF),
        mla(15, 3, RS, TURN),
        mul(15, 15, 15),
    ]
}
