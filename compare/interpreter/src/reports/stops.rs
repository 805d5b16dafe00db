//! Every stop, each rule of 23, and words that come close to a stop.

use super::case::Case;
use crate::arm::Shift;
use crate::assembler::*;

pub fn cases() -> Vec<Case> {
    let mut cases = no_word();
    cases.extend(others());
    cases.extend(forbidden());
    cases.extend(outside());
    cases.extend(fetched());
    cases
}

fn no_word() -> Vec<Case> {
    let count = [
        mov(0, number(1)),
        mov(1, number(2)),
        mov(2, number(3)),
        mov(3, number(4)),
    ];
    let loaded = [ldr(15, 15, 0), 0, 0xF3FF_FFFF];
    vec![
        Case::new("21 past the end of 16 bytes", &count).length(16),
        Case::new("21 past zeros", &[]).length(20),
        Case::new("21 by a branch", &[mov(0, number(1)), branch_to(4, 0x40)]),
        Case::new("21 by a branch below 0", &[branch_link(-3)]),
        Case::new("21 by a load", &loaded),
        Case::new(
            "21 by a stored counter in the last word",
            &[0, 0, 0, op(MVN, 15, 0, number(0))],
        )
        .length(16),
    ]
}

fn others() -> Vec<Case> {
    vec![
        Case::new("22 at once", &[SWI]),
        Case::new("22 long multiply", &[mov(1, number(7)), 0xE082_0191]),
        Case::new("22 coprocessor", &[on(NEVER, SWI), 0xEE00_0000]),
        Case::new(
            "22 single shifted by a register",
            &[single_by(LOAD | UP, 0, 15, 0x15)],
        ),
        Case::new("22 swap", &[mov(1, number(0x20)), SWP]),
        Case::new("22 a multiply with bit 22", &[0xE042_0191]),
        Case::new("22 a multiply with 1011", &[0xE002_01B1]),
        Case::new("22 a multiply with 1101", &[0xE022_01D1]),
        Case::new("22 a multiply with 1111, Rd Rm", &[0xE011_01F1]),
    ]
}

/// A case of one forbidden word, after one that counts.
fn after_one(rule: &str, word: u32) -> Case {
    Case::new(format!("23 {rule}"), &[mov(14, number(1)), word])
}

fn forbidden() -> Vec<Case> {
    let compare = |operation| op(operation, 0, 0, number(0));
    vec![
        after_one("Rs 15", mov(0, by_register(1, Shift::Lsl, 15))),
        after_one("TST without S", compare(TST)),
        after_one("TEQ without S", compare(TEQ)),
        after_one("CMP without S", compare(CMP)),
        after_one("CMN without S", compare(CMN)),
        after_one("base 15, P 0", single(LOAD | UP, 0, 15, 4)),
        after_one("base 15, W", single(STORE | BEFORE | UP | W, 0, 15, 8)),
        after_one(
            "register offset 15",
            single_by(LOAD | BEFORE | UP, 0, 1, plain(15)),
        ),
        after_one("byte to R15", single(LOAD | BEFORE | UP | BYTE, 15, 1, 0)),
        after_one(
            "byte of R15",
            single(STORE | BEFORE | UP | BYTE, 15, 1, 0x20),
        ),
        after_one("block with base 15", block(LOAD | UP, 15, list(&[0]))),
        after_one("block with S", block(LOAD | UP | S_BIT, 1, list(&[0]))),
        after_one("block of no register", block(STORE | UP, 1, 0)),
        after_one("Rd Rm", mul(1, 1, 2)),
        after_one("Rd Rm, MLA with S", mlas(14, 14, 1, 1)),
        after_one("Rd 15", mul(15, 1, 2)),
        after_one("Rn 15", mla(0, 1, 2, 15)),
        after_one("unused Rn 15", multiply(0, 0, 1, 2, 15)),
        after_one("multiplier 15", mul(0, 1, 15)),
        after_one("Rm 15", mul(0, 15, 2)),
        after_one("Rd Rm 15", mla(15, 15, 2, 3)),
        Case::new(
            "22 past a forbidden word on a failed condition",
            &[on(0, compare(TST)), SWI],
        ),
    ]
}

fn outside() -> Vec<Case> {
    let far = mov(1, number(0x3C));
    vec![
        Case::new("24 load", &[mov(1, number(0x40)), ldr(0, 1, 0)]),
        Case::new("24 store below 0", &[single(STORE | BEFORE, 0, 1, 4)]),
        Case::new(
            "24 block load, last word",
            &[far, block(LOAD | UP, 1, list(&[0, 2]))],
        ),
        Case::new(
            "24 block store, first word",
            &[
                mov(1, number(4)),
                block(STORE | BEFORE | W, 1, list(&[3, 4])),
            ],
        ),
        Case::new(
            "22 past a load of the last byte",
            &[far, single(LOAD | BEFORE | UP | BYTE, 0, 1, 3), SWI],
        ),
    ]
}

fn fetched() -> Vec<Case> {
    let base = mov(1, number(4));
    let next = |offset| str(1, 1, offset);
    let new_word = [
        mov(0, rotated(4, 0xEF)),
        str(0, 15, 4),
        0,
        0,
        mov(5, number(1)),
        SWI,
    ];
    vec![
        Case::new("25 at A+4", &[base, next(4)]),
        Case::new("25 at A+8", &[base, next(8)]),
        Case::new(
            "25 byte in the word at A+4",
            &[base, single(STORE | BEFORE | UP | BYTE, 1, 1, 7)],
        ),
        Case::new(
            "25 block store",
            &[base, block(STORE | UP, 1, list(&[0, 1]))],
        ),
        Case::new("22 stored at A+12", &new_word),
        Case::new("22 past a store at A", &[base, next(0), SWI]),
    ]
}
