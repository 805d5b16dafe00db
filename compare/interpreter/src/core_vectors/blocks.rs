//! Block transfers of 1 to 16 registers, over and over, with a settle in each of their steps and
//! refills.

use super::case::{Case, START};
use super::forms::addresses;
use crate::assembler::*;

/// The register of the base, and where the transfers' sixteen words are.
const RN: u32 = 13;
const DATA: u32 = 0x40;

/// A case has so many pairs of a run and a settle, fewer of the longest, as the last pair shows best.
const PAIRS: usize = 8;
const PAIRS_OF_ALL: usize = 2;

pub fn cases() -> Vec<Case> {
    let mut cases = Vec::new();
    for n in 1..=16 {
        for r15 in [false, true] {
            // Sixteen are all. R15 makes no difference to a store's steps: every other one has it.
            if n < 16 || r15 {
                cases.extend(over_and_over(LOAD, r15, n));
            }
            if n < 16 && n % 2 == 1 || r15 && n % 2 == 0 {
                cases.extend(over_and_over(STORE, r15, n));
            }
        }
    }
    cases
}

fn over_and_over(load: u32, r15: bool, n: u32) -> Vec<Case> {
    // All four modes and W come by in turn.
    let bits = load | (n % 4) << 23 | if n % 3 == 0 { 0 } else { W };
    let refills = if load == LOAD && r15 { 2 } else { 0 };
    let cycles = n + 1 + u32::from(load == LOAD) + refills;
    let code = [
        mov(RN, number(base(bits, n))),
        block(bits, RN, names(r15, n)),
        branch_to(8, 0),
    ];
    // From one settle's boundary to the transfer again: MOV, and before it the branch unless the
    // loaded counter went back.
    let between = if refills == 2 { 1 } else { 4 };
    let kind = if load == LOAD { "load" } else { "store" };
    let with = if r15 { " with R15" } else { "" };
    let steps: Vec<u32> = (1..cycles).collect();
    let case = |steps: &[u32]| {
        let topic = format!("settles in a block {kind} of {n}{with}, after {steps:?} of {cycles}");
        let mut case = Case::new(topic, &code).at(DATA, &addresses(0, 16));
        for (index, step) in steps.iter().enumerate() {
            let before = if index == 0 { START + 1 } else { between };
            case = case.run(before + step).settle();
        }
        case
    };
    let pairs = if n == 16 { PAIRS_OF_ALL } else { PAIRS };
    steps.chunks(pairs).map(case).collect()
}

/// The base from which the words are those from DATA on.
fn base(bits: u32, n: u32) -> u32 {
    let up = bits & UP != 0;
    let lowest = if up { DATA } else { DATA + 4 * n };
    match (up, bits & BEFORE != 0) {
        (true, true) => lowest - 4,
        (false, false) => lowest - 4,
        _ => lowest,
    }
}

/// So many names, R15 one of them or not, scattered.
fn names(r15: bool, n: u32) -> u32 {
    let others = n - u32::from(r15);
    let scattered = (0..others).fold(0, |list, index| list | 1 << ((index * 7 + n) % 15));
    scattered | u32::from(r15) << 15
}
