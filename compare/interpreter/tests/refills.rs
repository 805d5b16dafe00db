//! The words that a refill is taken of are those that some core comes into a refill by.

mod common;

use common::memory;
use common::records::good;
use interpreter::arm::{can_store_counter, Shift};
use interpreter::assembler::*;
use interpreter::pipeline::{Core, Phase};
use interpreter::programs::{any_multiplication, instruction};
use interpreter::random::Random;
use Phase::{Refill1, Refill2, Step};

const LENGTH: u32 = 0x1_0000;
const MIDDLE: u32 = LENGTH / 2;

/// Does some core that is about to do the word come into a refill, whatever its flags? With registers
/// of 0 no shift leads outside the memory, with those of its middle no block or offset does.
fn comes_into_a_refill(word: u32, lent: &mut [u8]) -> bool {
    let from = |flags, value| Core {
        pc: MIDDLE + 8,
        ix: Some(word),
        flags,
        r: [value; 15],
        length: LENGTH,
        ..good()
    };
    let mut cores = (0..16).flat_map(|flags| [from(flags, 0), from(flags, MIDDLE)]);
    cores.any(|mut core| loop {
        core = core.cycle(lent);
        if core.stop != 0 || core.phase == Step(1) {
            return false;
        }
        if core.phase == Refill1 {
            return true;
        }
    })
}

/// Do both refills of the word have this answer, under any flags?
fn refills_answer(word: u32, answer: u32) -> bool {
    let mut lent = memory(64, &[]);
    let mut is_answered = |phase, flags| {
        let core = Core {
            phase,
            flags,
            ix: Some(word),
            ..good()
        };
        core.run(&mut lent, 0).0 == answer
    };
    [0, 5, 10, 15]
        .into_iter()
        .all(|flags| is_answered(Refill1, flags) && is_answered(Refill2, flags))
}

/// Words of every class whose Rd or list is R15 often, with rules broken as often as not.
fn word(random: &mut Random) -> u32 {
    let word = match random.below(8) {
        0 => random.word(),
        1 => any_multiplication(random),
        2 => instruction(random),
        // A class by its bits 27..25, the rest of any kind.
        class => random.word() & !(7 << 25) | (class - 3 + random.below(2)) << 25,
    };
    let word = if random.chance(1, 2) {
        word | 15 << 12
    } else {
        word
    };
    on(random.pick(&[ALWAYS, ALWAYS, 0, 9, NEVER]), word)
}

#[test]
fn they_are_the_same() {
    let mut random = Random::new(31);
    let mut lent = memory(LENGTH as usize, &[]);
    let (mut can, mut cannot) = (0, 0);
    for _ in 0..20_000 {
        let word = word(&mut random);
        let comes = comes_into_a_refill(word, &mut lent);
        assert_eq!(can_store_counter(word), comes, "{word:08X}");
        assert!(
            refills_answer(word, if comes { 0 } else { 11 }),
            "{word:08X}"
        );
        *(if comes { &mut can } else { &mut cannot }) += 1;
    }
    println!("{can} {cannot}");
    assert!(can > 2000 && cannot > 2000);
}

#[test]
fn by_class_and_rule() {
    let shifted = |rs| by_register(3, Shift::Lsl, rs);
    let load = |bits, rn| single(LOAD | UP | bits, 15, rn, 4);
    let by_offset = |rm| single_by(LOAD | UP | BEFORE, 15, 1, plain(rm));
    let rows = [
        (mov(15, plain(1)), true),
        (movs(15, shifted(2)), true),
        (mov(15, shifted(15)), false),
        (mov(14, plain(15)), false),
        (ops(TST, 15, 1, plain(2)), false),
        (ops(CMN, 15, 1, shifted(2)), false),
        (op(TEQ, 15, 1, plain(2)), false),
        (load(0, 1), true),
        (load(BEFORE | W, 1), true),
        (load(BEFORE, 15), true),
        (load(0, 15), false),
        (load(BEFORE | W, 15), false),
        (load(BEFORE | BYTE, 1), false),
        (by_offset(2), true),
        (by_offset(15), false),
        (by_offset(2) | 1 << 4, false),
        (ldr(14, 15, 0), false),
        (str(15, 1, 0), false),
        (block(LOAD, 1, 1 << 15), true),
        (block(LOAD | W, 1, 0xFFFF), true),
        (block(LOAD, 1, 0x7FFF), false),
        (block(LOAD, 15, 0xFFFF), false),
        (block(LOAD | S_BIT, 1, 0xFFFF), false),
        (block(LOAD, 1, 0), false),
        (block(STORE, 1, 0xFFFF), false),
        (branch(0), true),
        (branch_link(0), true),
        (mul(3, 1, 2), false),
        (mul(15, 1, 2), false),
        (SWI, false),
        (SWP, false),
    ];
    let mut lent = memory(LENGTH as usize, &[]);
    for (word, can) in rows {
        for condition in 0..16 {
            let word = on(condition, word);
            let can = can && condition != NEVER;
            assert_eq!(can_store_counter(word), can, "{word:08X}");
            assert!(refills_answer(word, if can { 0 } else { 11 }), "{word:08X}");
            assert_eq!(comes_into_a_refill(word, &mut lent), can, "{word:08X}");
        }
    }
}
