//! Conditions against flags, and what a failed one leaves alone.

use super::case::{data, Case};
use crate::arm::Shift;
use crate::assembler::*;

pub fn cases() -> Vec<Case> {
    let mut cases: Vec<Case> = (0..16).map(all_conditions).collect();
    cases.extend(failed());
    cases.push(passed());
    cases
}

/// The conditions that hold gather as bits in R0.
fn all_conditions(flags: u32) -> Case {
    let bit = |place: u32| {
        if place < 8 {
            number(1 << place)
        } else {
            rotated(12, 1 << (place - 8))
        }
    };
    let code: Vec<u32> = (0..16)
        .map(|condition| on(condition, op(ORR, 0, 0, bit(condition))))
        .collect();
    Case::new(format!("conditions under flags {flags:X}"), &code)
        .r(0, 0)
        .flags(flags)
}

/// Words of every class, and words that would meet each stop, none of which runs.
fn failed() -> Vec<Case> {
    let runs = [
        movs(0, number(0)),
        op(ADD, 1, 1, by_register(2, Shift::Lsl, 3)),
        mov(15, number(0x30)),
        single(LOAD | UP, 4, 14, 4),
        single(STORE | BEFORE | UP | W, 5, 14, 4),
        block(LOAD | UP | W, 14, list(&[6, 7, 15])),
        block(STORE | UP | W, 14, list(&[6, 7])),
        branch(4),
        branch_link(4),
        ops(CMP, 0, 0, plain(0)),
        muls(9, 10, 11),
        mla(9, 10, 11, 12),
    ];
    let stops = [
        SWI,
        0xE080_0291,
        0xE791_0010,
        0xEE00_0010,
        op(CMP, 0, 0, plain(0)),
        mov(0, by_register(1, Shift::Lsl, 15)),
        single(LOAD, 0, 15, 0),
        block(LOAD, 15, 1),
        block(LOAD, 1, 0),
        ldr(0, 13, 0),
        block(STORE | UP, 13, 3),
        single(STORE | BEFORE, 0, 15, 0),
        single(STORE | BEFORE, 0, 15, 4),
        mul(1, 1, 2),
        mla(1, 2, 15, 3),
    ];
    let mut cases = Vec::new();
    for (condition, flags) in [(0, 0xB), (12, 0xD), (15, 0xF)] {
        for (name, words) in [("that run", &runs[..]), ("that stop", &stops[..])] {
            let code: Vec<u32> = words.iter().map(|&word| on(condition, word)).collect();
            let case = Case::new(format!("failed {condition}, words {name}"), &code)
                .r(13, 0x8000_0000)
                .r(14, 0x38)
                .flags(flags);
            cases.push(case);
        }
    }
    cases
}

/// Words of every class under a condition that holds.
fn passed() -> Case {
    let code = [
        on(11, mov(0, number(7))),
        on(4, single(LOAD | UP, 1, 14, 4)),
        on(8, str(0, 14, 0)),
        on(2, block(LOAD | UP | W, 14, list(&[2, 3]))),
        on(7, branch_link(0)),
        0xEF00_0000,
        on(13, ops(SUB, 4, 0, number(7))),
        on(0, keep_flags(5)),
        on(9, mlas(6, 3, 2, 3)),
    ];
    Case::new("passed conditions", &code)
        .at(0x28, &data(0x28, 6))
        .r(14, 0x28)
        .flags(0xA)
        .count(8)
}
