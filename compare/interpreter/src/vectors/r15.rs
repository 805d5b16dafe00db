//! R15 in every place of a word.

use super::case::{data, Case};
use crate::arm::Shift;
use crate::assembler::*;

pub fn cases() -> Vec<Case> {
    let mut cases = Vec::new();
    for flags in [0xF, 0x6] {
        cases.push(as_rn().flags(flags));
        cases.push(as_rm().flags(flags));
        cases.push(by_register_reads().flags(flags));
        cases.push(compared().flags(flags));
        cases.push(as_base().flags(flags));
        cases.push(stored().flags(flags));
    }
    cases.extend(loaded());
    cases.extend(as_rd());
    cases.extend(compares_to_15());
    cases
}

fn as_rn() -> Case {
    let code = [
        op(ADD, 0, 15, number(0)),
        op(SUB, 1, 15, number(1)),
        op(RSB, 2, 15, number(0)),
        op(ORR, 3, 15, number(3)),
        op(AND, 4, 15, plain(14)),
        op(EOR, 5, 15, by_amount(14, Shift::Lsl, 4)),
        op(ADC, 6, 15, number(0)),
        op(BIC, 7, 15, number(0)),
    ];
    Case::new("R15 as Rn", &code).entry(0).r(14, 0xFFFF_FFFF)
}

fn as_rm() -> Case {
    let code = [
        mov(0, plain(15)),
        op(MVN, 1, 0, plain(15)),
        mov(2, by_amount(15, Shift::Lsl, 2)),
        mov(3, by_amount(15, Shift::Lsr, 28)),
        mov(4, by_amount(15, Shift::Asr, 26)),
        mov(5, by_amount(15, Shift::Ror, 0)),
        op(ADD, 6, 15, plain(15)),
        op(SUB, 7, 13, plain(15)),
        movs(8, by_amount(15, Shift::Lsl, 1)),
    ];
    Case::new("R15 as Rm", &code)
}

fn by_register_reads() -> Case {
    let code = [
        op(ADD, 0, 15, by_register(13, Shift::Lsl, 14)),
        mov(1, by_register(15, Shift::Lsl, 14)),
        op(ADD, 2, 15, by_register(15, Shift::Lsr, 14)),
        op(SUB, 3, 15, by_register(15, Shift::Ror, 12)),
        op(MVN, 4, 15, by_register(15, Shift::Asr, 12)),
        ops(ORR, 5, 15, by_register(15, Shift::Lsr, 11)),
    ];
    Case::new("R15 with a shift by register", &code)
        .r(11, 33)
        .r(12, 4)
        .r(13, 0)
        .r(14, 0)
}

fn compared() -> Case {
    let code = [
        ops(CMP, 0, 15, number(8)),
        keep_flags(1),
        ops(CMN, 0, 15, by_register(14, Shift::Lsl, 13)),
        keep_flags(2),
        ops(TST, 0, 15, plain(15)),
        keep_flags(3),
        ops(TEQ, 0, 15, plain(15)),
        keep_flags(4),
    ];
    Case::new("R15 compared", &code).r(13, 0).r(14, 0xFFFF_FFE8)
}

/// Loads and stores about A+8, with no flags in the address.
fn as_base() -> Case {
    let code = [
        ldr(0, 15, 0x20),
        ldr(1, 15, 0x25),
        single(LOAD | BEFORE | BYTE | UP, 2, 15, 0x23),
        single(LOAD | BEFORE, 3, 15, 0xC),
        str(4, 15, 0x30),
        single(STORE | BEFORE | BYTE | UP, 5, 15, 0x35),
        single_by(LOAD | BEFORE | UP, 6, 15, by_amount(14, Shift::Lsl, 2)),
        single(STORE | BEFORE, 7, 15, 0x8),
        single(STORE | BEFORE, 8, 15, 0xC),
    ];
    Case::new("R15 as base", &code)
        .at(0x28, &data(0x28, 12))
        .r(14, 4)
}

fn stored() -> Case {
    let code = [
        str(15, 14, 0x40),
        single(STORE | UP, 15, 13, 4),
        block(STORE | UP, 12, list(&[1, 15])),
        block(STORE | UP | W, 12, list(&[15])),
    ];
    Case::new("R15 stored", &code)
        .length(128)
        .r(14, 0)
        .r(13, 0x4A)
        .r(12, 0x60)
}

/// Loads to R15, with flags, bits 27 and 26 and low bits in the word; then the flags there.
fn loaded() -> Vec<Case> {
    let mut cases = Vec::new();
    let landing = [keep_flags(5), keep_flags(6)];
    for low in 0..4 {
        // Rotated, the word is 5C000037 or 5C000034.
        let word = 0x5C00_0037_u32.rotate_left(8 * low);
        let case = Case::new(format!("R15 loaded from low bits {low}"), &[ldr(15, 1, 0)])
            .at(0x30, &landing)
            .at(0x20, &[word])
            .r(1, 0x20 + low)
            .flags(0xA)
            .count(2);
        cases.push(case);
    }
    let forms = [
        (
            "before, changed base",
            single(LOAD | BEFORE | UP | W, 15, 1, 4),
        ),
        ("after", single(LOAD, 15, 1, 4)),
        (
            "by register",
            single_by(LOAD | BEFORE | UP, 15, 1, by_amount(2, Shift::Lsr, 1)),
        ),
        ("block", block(LOAD | UP | W, 1, list(&[0, 15]))),
        ("block of one", block(LOAD | BEFORE, 1, list(&[15]))),
    ];
    for (name, word) in forms {
        let case = Case::new(format!("R15 loaded, {name}"), &[word])
            .at(0x30, &landing)
            .at(0x1C, &[0xA000_0030, 0xF000_0031, 0x0C00_0032, 0x0000_0033])
            .r(1, 0x20)
            .r(2, 8)
            .flags(0x5)
            .count(2);
        cases.push(case);
    }
    cases.push(
        Case::new("R15 loaded by its own base", &[0, 0, ldr(15, 15, 4)])
            .at(0x14, &[0x9000_0033])
            .at(0x30, &landing)
            .flags(0x3)
            .count(4),
    );
    cases
}

/// Rn, the operand and the flags for each operation that stores a result: most results are in
/// memory, with flags and low bits.
const TARGETS: [(u32, u32, u32, u32); 12] = [
    (AND, 0xF000_007F, 0x7000_0033, 0x8),
    (EOR, 0xA000_0010, 0x5000_0023, 0x0),
    (SUB, 0x9000_0043, 0x0000_0010, 0x6),
    (RSB, 0x0000_0010, 0x6000_0043, 0x9),
    (ADD, 0x5000_0001, 0x0000_0032, 0xA),
    (ADC, 0x5000_0001, 0x0000_0031, 0x2),
    (SBC, 0xB000_0044, 0x0000_0010, 0x4),
    (RSC, 0x0000_0010, 0x3000_0044, 0x1),
    (ORR, 0x4000_0030, 0x8000_0003, 0x7),
    (MOV, 0x0000_0000, 0x3C00_0032, 0xC),
    (BIC, 0x2FFF_FFFF, 0x0FFF_FFCC, 0x5),
    (MVN, 0x0000_0000, 0xEFFF_FFCF, 0x3),
];

fn as_rd() -> Vec<Case> {
    let mut cases = Vec::new();
    let landing = [keep_flags(5), keep_flags(6)];
    for (operation, x, y, flags) in TARGETS {
        for (name, word) in [
            ("without S", op(operation, 15, 0, plain(1))),
            ("with S", ops(operation, 15, 0, plain(1))),
        ] {
            let case = Case::new(format!("R15 as Rd of {operation} {name}"), &[word])
                .at(0x30, &landing)
                .r(0, x)
                .r(1, y)
                .flags(flags)
                .count(2);
            cases.push(case);
        }
    }
    let words = [
        ("by register", mov(15, by_register(1, Shift::Ror, 2))),
        (
            "by register with S",
            movs(15, by_register(1, Shift::Ror, 2)),
        ),
        ("from R15", op(ADD, 15, 15, plain(3))),
        ("from R15 with S", movs(15, plain(15))),
        (
            "from R15 by register",
            op(ADD, 15, 15, by_register(3, Shift::Lsr, 4)),
        ),
        ("constant", mov(15, number(0x33))),
        ("constant with S", movs(15, rotated(1, 0xC3))),
    ];
    for (name, word) in words {
        let case = Case::new(format!("R15 as Rd, {name}"), &[word])
            .at(0x30, &landing)
            .r(1, 0x0033_B000)
            .r(2, 16)
            .r(3, 0x28)
            .r(4, 0)
            .flags(0x9)
            .count(2);
        cases.push(case);
    }
    cases
}

/// TST to CMN with Rd=15 and S set the flags from bits 31..28 and go on at A+4.
fn compares_to_15() -> Vec<Case> {
    let mut cases = Vec::new();
    for operation in TST..=CMN {
        let code = [
            ops(operation, 15, 0, plain(1)),
            keep_flags(5),
            ops(operation, 15, 2, rotated(2, 0x0B)),
            keep_flags(6),
            ops(operation, 15, 3, by_register(1, Shift::Lsl, 4)),
            keep_flags(7),
            ops(operation, 15, 15, plain(15)),
            keep_flags(8),
        ];
        let case = Case::new(format!("operation {operation} to R15 with S"), &code)
            .r(0, 0xF000_0000)
            .r(1, 0x6000_0000)
            .r(2, 0x9000_0000)
            .r(3, 0x1234_5678)
            .r(4, 1)
            .flags(0xF);
        cases.push(case);
    }
    cases
}
