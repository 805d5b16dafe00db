//! Where the budget of 64 ends: within an instruction, within a refill, at a stop and beside it.

use super::case::Case;
use crate::arm::Shift;
use crate::assembler::*;

pub fn cases() -> Vec<Case> {
    let mut cases = block_load();
    cases.extend(block_store());
    cases.extend(singles());
    cases.extend(refills());
    cases.extend(stops());
    cases.extend(seven_cycles());
    cases
}

/// Four words from 0 on, with the base moved: 6 cycles.
fn block_load() -> Vec<Case> {
    let before = [mov(1, number(0)), mov(7, number(9))];
    let load = block(LOAD | UP | W, 1, list(&[2, 4, 6, 7]));
    let case = |left| {
        let topic = format!("budget: block load, {left} of 6");
        Case::with_left(topic, left, &before, &[load, SWI])
    };
    [1, 2, 3, 5, 6].map(case).to_vec()
}

/// Three words below 0x1C0, R15 one of them, with the base moved: 4 cycles.
fn block_store() -> Vec<Case> {
    let before = [mov(13, rotated(14, 0x1C)), mov(7, number(9))];
    let store = block(STORE | BEFORE | W, 13, list(&[7, 13, 15]));
    let case = |left| {
        let topic = format!("budget: block store, {left} of 4");
        Case::with_left(topic, left, &before, &[store, SWI])
    };
    [1, 2, 3].map(case).to_vec()
}

fn singles() -> Vec<Case> {
    let before = [mov(1, number(0x10)), mov(2, number(0x21))];
    let after = single(LOAD | UP, 3, 1, 8);
    let store = single(STORE | BEFORE | UP | W, 2, 1, 0x30);
    let shifted = movs(4, by_register(2, Shift::Ror, 2));
    let case = |topic: &str, left, word| {
        Case::with_left(format!("budget: {topic}"), left, &before, &[word, SWI])
    };
    vec![
        case("load, 1 of 3", 1, after),
        case("load, 2 of 3", 2, after),
        case("store, 1 of 2", 1, store),
        case("shift by register, 1 of 2", 1, shifted),
        case("shift by register, 2 of 2", 2, shifted),
    ]
}

fn refills() -> Vec<Case> {
    let before = [mov(3, number(1))];
    // The code begins at word 62 - left; the branch goes back to word 1.
    let back = |left: i32| branch_link(1 - (62 - left) - 2);
    vec![
        Case::with_left("budget: before refill 1", 1, &before, &[back(1), SWI]),
        Case::with_left("budget: before refill 2", 2, &before, &[back(2), SWI]),
        Case::with_left("budget: after refill 2", 3, &before, &[back(3), SWI]),
        Case::with_left("budget: failed branch", 1, &before, &[on(0, back(1)), SWI]),
        Case::new("budget: a branch to itself", &[branch(-2)]).length(16),
    ]
}

fn stops() -> Vec<Case> {
    let before = [movs(3, number(0))];
    vec![
        Case::with_left("budget: spent at a stop", 0, &before, &[SWI]),
        Case::with_left("22 with 1 cycle left", 1, &before, &[SWI]),
        Case::with_left(
            "budget: spent at a stop, by a load",
            3,
            &before,
            &[ldr(5, 3, 0), SWI],
        ),
        Case::with_left(
            "24 with 1 cycle left",
            2,
            &[op(MVN, 3, 0, number(5))],
            &[0, ldr(5, 3, 0)],
        ),
        Case::new("budget: spent past the end", &[]).length(4 * 62),
        Case::new("21 with 1 cycle left", &[]).length(4 * 61),
    ]
}

/// The load of R0, R2, R15: 5 own steps and the refills.
fn seven_cycles() -> Vec<Case> {
    let load = block(LOAD | UP, 14, list(&[0, 2, 15]));
    let whole = [
        mov(14, number(0x10)),
        load,
        SWI,
        SWI,
        0x1234_ABCD,
        0xFEDC_BA98,
        0xF000_0023,
        0,
        mov(6, number(1)),
        SWI,
    ];
    let mut cases = vec![Case::new("22 past the load of 7 cycles", &whole)];
    // The words from 0 on are loaded: the third one is the counter.
    let before = [mov(14, number(0)), mov(1, number(1)), mov(3, number(0x10))];
    for left in 1..=7 {
        let topic = format!("budget: load of 7 cycles, {left} of 7");
        cases.push(Case::with_left(topic, left, &before, &[load]));
    }
    cases
}
