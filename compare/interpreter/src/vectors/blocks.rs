//! Block transfers.

use super::case::{data, Case};
use crate::assembler::*;

pub fn cases() -> Vec<Case> {
    let mut cases = Vec::new();
    for mode in 0..4 {
        for w in [0, W] {
            for load in [STORE, LOAD] {
                let bits = mode << 23 | w | load;
                // A load without W doesn't care which register is the base.
                let bases: &[usize] = if bits & (LOAD | W) == LOAD {
                    &[3, 9]
                } else {
                    &[1, 3, 6, 9]
                };
                cases.extend(bases.iter().map(|&base| with_base(bits, base)));
            }
            cases.push(with_r15(mode << 23 | w | LOAD));
        }
        cases.push(with_r15(mode << 23 | W | STORE));
        cases.push(full(mode << 23 | STORE, 13));
        cases.push(full(mode << 23 | LOAD | W, 0));
    }
    cases.extend(alone());
    cases.push(full(UP | W | STORE, 0));
    cases.push(full(BEFORE | W | STORE, 14));
    cases.push(in_a_row());
    cases.push(near_a());
    cases
}

fn name(bits: u32) -> String {
    format!("block, bits {:02X}", bits >> 20)
}

/// R1, R3 and R6 with a base that is the lowest, the middle, the highest or none of them, its
/// low two bits different from mode to mode.
fn with_base(bits: u32, base: usize) -> Case {
    let low = (bits >> 23) + base as u32;
    let case = Case::new(
        format!("{}, base R{base}", name(bits)),
        &[block(bits, base as u32, list(&[1, 3, 6]))],
    )
    .r(base, 0x28 + low % 4)
    .flags(low % 16);
    if bits & LOAD != 0 {
        case.at(0x18, &data(0x18, 10))
    } else {
        case
    }
}

/// R0, R2 and R15, and then the flags where it goes on.
fn with_r15(bits: u32) -> Case {
    let targets = [0xF000_0033, 0x0C00_0031, 0x6000_0032, 0xA000_0030];
    let case = Case::new(
        format!("{}, with R15", name(bits)),
        &[block(bits, 4, list(&[0, 2, 15]))],
    )
    .r(4, 0x22)
    .flags(0x9)
    .count(2);
    if bits & LOAD != 0 {
        case.at(0x14, &targets)
            .at(0x24, &targets[..3])
            .at(0x20, &[0x5000_0033])
            .at(0x30, &[keep_flags(5)])
    } else {
        case
    }
}

/// All sixteen registers.
fn full(bits: u32, base: usize) -> Case {
    let up = bits & UP != 0;
    let case = Case::new(
        format!("{}, full, base R{base}", name(bits)),
        &[block(bits, base as u32, 0xFFFF)],
    )
    .length(128)
    .r(base, if up { 0x31 } else { 0x6E })
    .flags(0x6)
    .count(2);
    if bits & LOAD != 0 {
        let mut words = data(0x20, 24);
        for word in &mut words {
            *word &= 0xF000_007F;
        }
        case.at(0x20, &words)
    } else {
        case
    }
}

/// Lists of one register, the base among them.
fn alone() -> Vec<Case> {
    let mut cases = Vec::new();
    for load in [STORE, LOAD] {
        for (bits, register) in [(UP | W, 2), (W, 4), (BEFORE | W, 2), (BEFORE | UP, 2)] {
            let bits = bits | load;
            let case = Case::new(
                format!("{}, R{register} alone, base R2", name(bits)),
                &[block(bits, 2, list(&[register]))],
            )
            .at(0x20, &data(0x20, 4))
            .r(2, 0x27);
            cases.push(case);
        }
    }
    cases
}

/// Pushes and pulls that find each other's words.
fn in_a_row() -> Case {
    let code = [
        block(STORE | BEFORE | W, 13, list(&[0, 1, 2, 14])),
        block(STORE | BEFORE | W, 13, list(&[3, 4])),
        block(LOAD | UP | W, 13, list(&[5, 6])),
        block(LOAD | UP | W, 13, list(&[7, 8, 9, 10])),
        block(STORE | UP | W, 13, list(&[11, 12])),
        block(LOAD | W, 13, list(&[0])),
    ];
    Case::new("pushes and pulls", &code).length(96).r(13, 0x50)
}

/// Stores that end at A and begin at A+12, and loads over A+4 and A+8.
fn near_a() -> Case {
    let code = [
        mov(0, plain(0)),
        block(STORE, 13, list(&[1, 2])),
        block(STORE | UP, 12, list(&[3, 4])),
        block(LOAD | UP, 11, list(&[5, 6, 7])),
        mov(0, plain(0)),
    ];
    // At 4: to 0 and 4. At 8: to 14 and 18. At C: from C, 10 and 14.
    Case::new("blocks near A", &code)
        .r(13, 4)
        .r(12, 0x14)
        .r(11, 0xC)
}
