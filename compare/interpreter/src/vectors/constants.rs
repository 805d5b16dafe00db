//! Rotated constants.

use super::case::Case;
use crate::assembler::*;

pub fn cases() -> Vec<Case> {
    let mut cases: Vec<Case> = (0..16).map(rotation).collect();
    cases.push(in_sums());
    cases
}

/// FF, 0 and 81 by one rotation, each with C = 0 and C = 1. The carries gather in R12.
fn rotation(rotation: u32) -> Case {
    let clear = ops(CMN, 0, 14, plain(14));
    let set = ops(CMP, 0, 14, plain(14));
    let mut code = Vec::new();
    for (rd, value) in [(0, 0xFF), (2, 0x00), (4, 0x81)] {
        for (set_c, rd) in [(clear, rd), (set, rd + 1)] {
            let gather = op(ADC, 12, 12, plain(12));
            code.extend([set_c, movs(rd, rotated(rotation, value)), gather]);
        }
    }
    Case::new(format!("constants rotated by {}", 2 * rotation), &code)
        .r(12, 0)
        .r(14, 0)
}

/// Arithmetic takes its carry from the sum, not from the constant.
fn in_sums() -> Case {
    let code = [
        ops(ADD, 1, 0, rotated(1, 0x02)),
        keep_flags(2),
        ops(SUB, 3, 0, rotated(2, 0xFF)),
        keep_flags(4),
        op(RSB, 5, 0, rotated(15, 0xFF)),
        op(BIC, 6, 0, rotated(8, 0xAB)),
        op(MVN, 7, 0, rotated(12, 0x3F)),
    ];
    Case::new("constants in sums", &code).r(0, 0x7000_1234)
}
