//! The paper's marked values and the places it says others get wrong.

mod common;

use common::table::sums;
use common::{memory, one, registers};
use interpreter::arm::{constant, shift_by_amount, shift_by_register, Shift, Shifted};
use interpreter::assembler::*;
use interpreter::memory::word;
use interpreter::pipeline::Core;
use interpreter::plain::Plain;

fn flags_of(operation: u32, x: u32, y: u32) -> u32 {
    let word = ops(operation, 2, 0, plain(1));
    one(memory(64, &[]), 0, word, registers(&[(0, x), (1, y)]), 0).flags
}

#[test]
fn sums_and_differences() {
    assert_eq!(flags_of(SUB, 1, 1), 6);
    assert_eq!(flags_of(SUB, 0, 1), 8);
    assert_eq!(flags_of(SUB, 0x8000_0000, 1), 3);
    assert_eq!(flags_of(ADD, 0x7FFF_FFFF, 1), 9);
}

#[test]
fn shifts() {
    let is = |value, carry| Shifted { value, carry };
    assert_eq!(
        shift_by_amount(Shift::Lsr, 0, 0x8000_0001, false),
        is(0, true)
    );
    assert_eq!(
        shift_by_amount(Shift::Ror, 0, 2, true),
        is(0x8000_0001, false)
    );
    assert_eq!(shift_by_register(Shift::Lsl, 0x20, 1, false), is(0, true));
    assert_eq!(shift_by_register(Shift::Lsl, 0x21, 1, true), is(0, false));
    assert_eq!(constant(4, 0xFF, false), is(0xFF00_0000, true));
    assert_eq!(rotated(4, 0xFF) & 0xFFF, 0x4FF);
}

#[test]
fn ror_by_32_carries_bit_31() {
    let word = movs(0, by_register(1, Shift::Ror, 2));
    let after = one(
        memory(64, &[]),
        0,
        word,
        registers(&[(1, 0x8000_0000), (2, 32)]),
        0,
    );
    assert_eq!((after.r[0], after.flags), (0x8000_0000, 0xA));
}

#[test]
fn load_at_1() {
    let mut memory = vec![0; 64];
    memory[..4].copy_from_slice(&[0x11, 0x22, 0x33, 0x44]);
    let after = one(memory, 16, ldr(0, 1, 0), registers(&[(1, 1)]), 0);
    assert_eq!((after.r[0], after.cycles), (0x1144_3322, 3));
}

#[test]
fn stored_bases() {
    let r = registers(&[(0, 7), (1, 0x100), (2, 9)]);
    let after = one(memory(512, &[]), 0, block(UP | W, 1, list(&[1, 2])), r, 0);
    assert_eq!(
        (word(&after.memory, 0x100), word(&after.memory, 0x104)),
        (0x100, 9)
    );
    assert_eq!((after.r[1], after.cycles), (0x108, 3));
    let after = one(memory(512, &[]), 0, block(UP | W, 1, list(&[0, 1])), r, 0);
    assert_eq!(
        (word(&after.memory, 0x100), word(&after.memory, 0x104)),
        (7, 0x108)
    );
}

#[test]
fn at_20_with_flags_6() {
    let after = one(memory(128, &[]), 0x20, branch_link(2), [0; 15], 6);
    assert_eq!((after.r[14], after.a, after.cycles), (0x6000_0024, 0x30, 3));
    let after = one(memory(128, &[]), 0x20, str(PC, 0, 0x40), [0; 15], 6);
    assert_eq!((word(&after.memory, 0x40), after.cycles), (0x6000_002C, 2));
    for (to, stop) in [(0x20, 0), (0x24, 25), (0x28, 25), (0x2C, 0)] {
        for low in 0..4 {
            let word = single(STORE | BEFORE | UP | BYTE, 3, 0, to + low);
            assert_eq!(one(memory(128, &[]), 0x20, word, [0; 15], 6).stop, stop);
            assert_eq!(
                one(memory(128, &[]), 0x20, str(3, 0, to + low), [0; 15], 6).stop,
                stop
            );
        }
        let word = block(STORE | UP, 0, list(&[3]));
        assert_eq!(
            one(memory(128, &[]), 0x20, word, registers(&[(0, to)]), 6).stop,
            stop
        );
    }
}

#[test]
fn seven_cycle_load() {
    let mut image = vec![0; 32];
    image[16..19].copy_from_slice(&[5, 6, 0xF000_0013]);
    let r = registers(&[(1, 0x40)]);
    let after = one(
        memory(128, &image),
        8,
        block(LOAD | UP, 1, list(&[0, 2, 15])),
        r,
        4,
    );
    assert_eq!(
        (after.r[0], after.r[2], after.a, after.flags),
        (5, 6, 0x10, 4)
    );
    assert_eq!(after.cycles, 7);
}

#[test]
fn a_loaded_base_wins() {
    let mut image = vec![0; 32];
    image[16..18].copy_from_slice(&[5, 6]);
    let r = registers(&[(1, 0x40)]);
    let after = one(
        memory(128, &image),
        8,
        block(LOAD | UP | W, 1, list(&[0, 1])),
        r,
        4,
    );
    assert_eq!((after.r[0], after.r[1], after.cycles), (5, 6, 4));
}

#[test]
fn a_skipped_branch_costs_1() {
    let after = one(memory(64, &[]), 8, on(0, branch_link(4)), [0; 15], 0);
    assert_eq!((after.a, after.cycles, after.r[14]), (12, 1, 0));
}

/// What the request for multiplies says of Rs, with the duration.
#[test]
fn durations_of_multiplies() {
    let cases = [
        (0, 2),
        (1, 2),
        (2, 3),
        (7, 3),
        (8, 4),
        (31, 4),
        ((1 << 27) - 1, 15),
        (1 << 27, 16),
        ((1 << 29) - 1, 16),
        (1 << 29, 17),
        (u32::MAX, 17),
    ];
    for (rs, cycles) in cases {
        for word in [mul(0, 1, 2), mlas(0, 1, 2, 3), mul(2, 1, 2)] {
            let r = registers(&[(1, 3), (2, rs)]);
            let after = one(memory(64, &[]), 8, word, r, 0);
            assert_eq!((after.stop, after.cycles), (0, cycles), "{rs:X}");
        }
    }
}

#[test]
fn multiplies() {
    let flagged = |word, values: &[(usize, u32)], flags| {
        let after = one(memory(64, &[]), 8, word, registers(values), flags);
        assert_eq!((after.stop, after.a), (0, 12));
        (after.r[0], after.flags)
    };
    let six = [(1, 2), (2, 3), (3, 4)];
    assert_eq!(flagged(mul(0, 1, 2), &six, 0xF), (6, 0xF));
    assert_eq!(flagged(mla(0, 1, 2, 3), &six, 0xF), (10, 0xF));
    assert_eq!(flagged(muls(0, 1, 2), &six, 0xF), (6, 0x3));
    assert_eq!(flagged(mlas(0, 1, 2, 3), &six, 0xC), (10, 0x0));
    let wraps = [(1, 0x0001_0000), (2, 0x0001_0000), (3, 0xFFFF_FFFF)];
    assert_eq!(flagged(muls(0, 1, 2), &wraps, 0x8), (0, 0x4));
    assert_eq!(flagged(muls(0, 1, 2), &wraps, 0x3), (0, 0x7));
    assert_eq!(flagged(mlas(0, 1, 2, 3), &wraps, 0x5), (0xFFFF_FFFF, 0x9));
    let signs = [(1, 0xFFFF_FFFF), (2, 0xFFFF_FFFF), (3, 0xFFFF_FFFF)];
    assert_eq!(flagged(muls(0, 1, 2), &signs, 0x0), (1, 0x0));
    assert_eq!(flagged(mlas(0, 1, 2, 3), &signs, 0x2), (0, 0x6));
    // Rd may be Rs, Rn or both.
    let own = [(0, 5), (1, 7)];
    assert_eq!(flagged(mul(0, 1, 0), &own, 0), (35, 0));
    assert_eq!(flagged(mla(0, 1, 1, 0), &own, 0), (54, 0));
    assert_eq!(flagged(mla(0, 1, 0, 0), &own, 0), (40, 0));
}

/// Each row of the table of ticks, and S+N more for each counter stored but a branch's.
#[test]
fn what_a_retirement_adds() {
    let eight = by_register(0, Shift::Lsr, 2);
    let rows = [
        (on(0, branch_link(4)), [0, 1, 0]),
        (on(0, block(LOAD | UP, 1, 0xFFFF)), [0, 1, 0]),
        (on(NEVER, mul(3, 15, 2)), [0, 1, 0]),
        (on(NEVER, SWI), [0, 1, 0]),
        (ops(ADC, 3, 15, number(1)), [0, 1, 0]),
        (mov(3, by_amount(1, Shift::Ror, 0)), [0, 1, 0]),
        (ops(TEQ, 15, 1, number(1)), [0, 1, 0]),
        (movs(15, plain(1)), [1, 2, 0]),
        (mov(3, eight), [0, 1, 1]),
        (ops(CMN, 15, 3, eight), [0, 1, 1]),
        (mov(15, eight), [1, 2, 1]),
        (ldr(3, 1, 2), [1, 1, 1]),
        (single(LOAD | BYTE | UP, 1, 1, 3), [1, 1, 1]),
        (ldr(15, 1, 0), [2, 2, 1]),
        (str(3, 1, 0), [2, 0, 0]),
        (single(STORE | BYTE | UP, 1, 1, 3), [2, 0, 0]),
        (str(15, 1, 0), [2, 0, 0]),
        (block(LOAD | UP, 1, list(&[3])), [1, 1, 1]),
        (block(LOAD | UP | W, 1, 0x7FFF), [1, 15, 1]),
        (block(LOAD | UP, 1, 1 << 15), [2, 2, 1]),
        (block(LOAD | UP, 1, 0xFFFF), [2, 17, 1]),
        (block(STORE | UP, 1, list(&[3])), [2, 0, 0]),
        (block(STORE | UP, 1, 1 << 15), [2, 0, 0]),
        (block(STORE | UP | W, 1, 0xFFFF), [2, 15, 0]),
        (branch(4), [1, 2, 0]),
        (branch_link(-1), [1, 2, 0]),
        (mul(3, 1, 2), [0, 1, 4]),
        (mlas(3, 1, 2, 4), [0, 1, 4]),
        // The results are far above Rs and 0.
        (mul(2, 5, 2), [0, 1, 4]),
        (muls(2, 6, 2), [0, 1, 4]),
        (mla(5, 1, 5, 5), [0, 1, 16]),
        // These stop.
        (SWI, [0, 0, 0]),
        (mul(3, 3, 2), [0, 0, 0]),
        (ldr(3, 5, 0), [0, 0, 0]),
        (str(3, 15, 0), [0, 0, 0]),
    ];
    let r = registers(&[(0, 0x30), (1, 0x40), (2, 0x20), (5, u32::MAX)]);
    for (word, wanted) in rows {
        let after = one(memory(128, &[]), 8, word, r, 0);
        assert_eq!(after.sums, sums(wanted), "{word:08X}");
        assert_eq!(after.sums.together(), after.cycles.into(), "{word:08X}");
    }
}

#[test]
fn ticks() {
    let ticks = |numbers| sums(numbers).ticks();
    assert_eq!(ticks([0, 0, 0]), 0);
    assert_eq!(ticks([1, 0, 0]), 2);
    assert_eq!(ticks([0, 1, 0]), 1);
    assert_eq!(ticks([0, 0, 1]), 1);
    assert_eq!(ticks([1 << 40, 0, 0]), 1 << 41);
}

#[test]
fn forbidden_multiplies() {
    let words = [
        mul(1, 1, 2),
        mla(1, 1, 2, 3),
        mul(15, 1, 2),
        mul(1, 15, 2),
        mul(1, 2, 15),
        mla(1, 2, 3, 15),
        multiply(0, 1, 2, 3, 15),
    ];
    for word in words {
        for word in [word, word | SETS] {
            let after = one(memory(64, &[]), 8, word, [5; 15], 3);
            assert_eq!((after.stop, after.r, after.cycles), (23, [5; 15], 0));
            let after = one(memory(64, &[]), 8, on(0, word), [5; 15], 3);
            assert_eq!((after.stop, after.r, after.cycles), (0, [5; 15], 1));
        }
    }
}

const REPORT: [u32; 4] = [0xE3A0_0005, 0xE250_0001, 0x1AFF_FFFD, 0xEF00_0000];

#[test]
fn the_report() {
    let mut lent = memory(16, &REPORT);
    let (answer, core) = Core::start([0; 15], 0, 0, &lent);
    assert_eq!(answer, 0);
    let (answer, used, core) = core.run(&mut lent, 64);
    assert_eq!((answer, used), (22, 21));
    assert_eq!(
        (core.pc, core.cycles, core.retired, core.flags),
        (0x14, 21, 11, 6)
    );
    assert_eq!((core.r, core.stop), ([0; 15], 22));
    // The start, MOV, SUBS five times, the branch four times and once on a failed condition.
    assert_eq!(core.sums, sums([1 + 4, 1 + 1 + 5 + 8 + 1, 0]));
    assert_eq!(core.sums.ticks(), 26);
}

#[test]
fn the_report_on_the_plain_machine() {
    let mut lent = memory(16, &REPORT);
    let (answer, mut plain) = Plain::start([0; 15], 0, 0, &lent);
    assert_eq!(answer, 0);
    assert_eq!(plain.run(&mut lent, 64), (22, 11));
    assert_eq!(
        (plain.a, plain.flags, plain.r, plain.stop),
        (12, 6, [0; 15], 22)
    );
}

#[test]
fn the_assembler_makes_the_report() {
    let words = [
        mov(0, number(5)),
        ops(SUB, 0, 0, number(1)),
        on(1, branch_to(8, 4)),
        SWI,
    ];
    assert_eq!(words, REPORT);
}

#[test]
fn words_of_known_books() {
    // As an assembler of the time writes them.
    assert_eq!(mov(15, plain(14)), 0xE1A0_F00E);
    assert_eq!(movs(15, plain(14)), 0xE1B0_F00E);
    assert_eq!(
        block(STORE | BEFORE | W, 13, list(&[0, 1, 2, 14])),
        0xE92D_4007
    );
    assert_eq!(block(LOAD | UP | W, 13, list(&[0, 1, 2, 15])), 0xE8BD_8007);
    assert_eq!(ldr(0, 1, 4), 0xE591_0004);
    assert_eq!(single(STORE | W | BEFORE, 2, 3, 8), 0xE523_2008);
    assert_eq!(single(LOAD | BYTE | UP, 4, 5, 1), 0xE4D5_4001);
    assert_eq!(
        single_by(LOAD | BEFORE | UP, 0, 1, by_amount(2, Shift::Lsl, 2)),
        0xE791_0102
    );
    assert_eq!(op(ADD, 0, 1, by_register(2, Shift::Lsr, 3)), 0xE081_0332);
    assert_eq!(op(ORR, 1, 1, by_amount(2, Shift::Asr, 4)), 0xE181_1242);
    assert_eq!(op(AND, 1, 1, by_amount(2, Shift::Ror, 31)), 0xE001_1FE2);
    assert_eq!(branch_link(-2), 0xEBFF_FFFE);
    assert_eq!(mul(0, 1, 2), 0xE000_0291);
    assert_eq!(muls(1, 2, 3), 0xE011_0392);
    assert_eq!(mla(3, 4, 5, 6), 0xE023_6594);
    assert_eq!(mlas(7, 8, 9, 10), 0xE037_A998);
}
