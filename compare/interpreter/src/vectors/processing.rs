//! The sixteen operations, with and without S.

use super::case::Case;
use crate::arm::Shift;
use crate::assembler::*;

/// Four values for R0 to R3, and the flags to start with.
const VALUES: [([u32; 4], u32); 3] = [
    ([0, 1, 0x8000_0000, 1], 0x2),
    ([0x7FFF_FFFF, 1, 0xFFFF_FFFF, 0xFFFF_FFFF], 0x5),
    ([0x5A5A_A5A5, 0x0F0F_F0F0, 0x8000_0000, 0x7FFF_FFFF], 0xA),
];

/// The pairs of Rn and Rm, out of R0 to R3.
const PAIRS: [(u32, u32); 4] = [(0, 1), (1, 0), (2, 3), (3, 2)];

fn is_logical(operation: u32) -> bool {
    !(SUB..=RSC).contains(&operation) && operation != CMP && operation != CMN
}

pub fn cases() -> Vec<Case> {
    let mut cases = Vec::new();
    for operation in 0..16 {
        for (values, flags) in VALUES {
            cases.push(with_values(with_s(operation), values, flags));
        }
        // C both ways where it is taken in; TST to CMN without S are stops.
        let images = match operation {
            TST..=CMN => 0,
            ADC | SBC | RSC => 2,
            _ => 1,
        };
        for (values, flags) in VALUES.into_iter().take(images) {
            cases.push(with_values(without_s(operation), values, flags));
        }
        cases.push(shifter_carry(operation, 0x1));
        if is_logical(operation) {
            cases.push(shifter_carry(operation, 0xE));
        }
    }
    for operation in [ADC, SBC, RSC] {
        for set_c in [CMN, CMP] {
            cases.push(carry_edges(operation, set_c));
        }
    }
    cases
}

/// Sums and differences that only the carry taken in brings over an edge.
fn carry_edges(operation: u32, set_c: u32) -> Case {
    let mut code = Vec::new();
    for (index, rn) in (0..).zip(0..4) {
        let set_c = ops(set_c, 0, 14, plain(14));
        code.extend([
            set_c,
            ops(operation, 4 + index, rn, plain(13)),
            keep_flags(8 + index),
        ]);
    }
    let set_c = ops(set_c, 0, 14, plain(14));
    code.extend([set_c, ops(operation, 12, 0, plain(1))]);
    let case = Case::new(format!("operation {operation}, edges of the carry"), &code);
    with_values(case, [0xFFFF_FFFF, 0x7FFF_FFFF, 0x8000_0000, 0], 0xF)
        .r(13, 0)
        .r(14, 0)
}

fn with_values(case: Case, values: [u32; 4], flags: u32) -> Case {
    let case = case.flags(flags);
    values
        .into_iter()
        .enumerate()
        .fold(case, |case, (name, value)| case.r(name, value))
}

/// Results in R4 to R7 and R12, the flags after each in R8 to R11 and at the end.
fn with_s(operation: u32) -> Case {
    let mut code = Vec::new();
    for (index, (rn, rm)) in (0..).zip(PAIRS) {
        code.push(ops(operation, 4 + index, rn, plain(rm)));
        code.push(keep_flags(8 + index));
    }
    code.push(ops(operation, 12, 1, rotated(4, 0xC3)));
    Case::new(format!("operation {operation} with S"), &code)
}

fn without_s(operation: u32) -> Case {
    let mut code = Vec::new();
    for (index, (rn, rm)) in (0..).zip(PAIRS) {
        code.push(op(operation, 4 + index, rn, plain(rm)));
    }
    code.push(op(operation, 12, 1, rotated(4, 0xC3)));
    Case::new(format!("operation {operation} without S"), &code)
}

/// The shifter's carry 1 and 0 by amount, 1 and 0 by a constant, kept by a constant.
fn shifter_carry(operation: u32, flags: u32) -> Case {
    let operands = [
        by_amount(1, Shift::Lsr, 1),
        by_amount(2, Shift::Lsr, 1),
        rotated(1, 0x02),
        rotated(1, 0x10),
        number(0x21),
    ];
    let mut code = Vec::new();
    for (index, operand) in (0..).zip(operands) {
        code.push(ops(operation, 3 + index, 0, operand));
        code.push(keep_flags(8 + index));
    }
    Case::new(
        format!("operation {operation}, carry of the shifter"),
        &code,
    )
    .r(0, 0x1234_5678)
    .r(1, 0x0000_0103)
    .r(2, 0x0000_0102)
    .flags(flags)
}
