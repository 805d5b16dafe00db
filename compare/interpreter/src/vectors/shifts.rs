//! Each kind of shift, by amount and by register, with C both ways.

use super::case::Case;
use crate::arm::Shift;
use crate::assembler::*;

const SHIFTS: [Shift; 4] = [Shift::Lsl, Shift::Lsr, Shift::Asr, Shift::Ror];

/// Values for R0 to R2.
const VALUES: [[u32; 3]; 2] = [
    [0x8000_0000, 0x0000_0001, 0xA53C_96F2],
    [0x7FFF_FFFE, 0x8000_0001, 0x1234_5679],
];

pub fn cases() -> Vec<Case> {
    let mut cases = Vec::new();
    for shift in SHIFTS {
        for (turn, amount) in [0, 1, 31].into_iter().enumerate() {
            let operand = |rm| by_amount(rm, shift, amount);
            let topic = format!("{shift:?} by {amount} in the word");
            cases.push(case(topic, operand, VALUES[turn % 2]));
        }
        cases.push(case(
            format!("{shift:?} by 0 in the word, again"),
            |rm| by_amount(rm, shift, 0),
            VALUES[1],
        ));
        let amounts = [0, 1, 31, 32, 33, 64, 255, 256, 0xFFFF_FF20];
        for (turn, amount) in amounts.into_iter().enumerate() {
            let topic = format!("{shift:?} by {amount:X} in a register");
            let operand = |rm| by_register(rm, shift, 9);
            cases.push(case(topic, operand, VALUES[turn % 2]).r(9, amount));
            if amount == 32 {
                let topic = format!("{shift:?} by {amount:X} in a register, again");
                cases.push(case(topic, operand, VALUES[(turn + 1) % 2]).r(9, amount));
            }
        }
    }
    cases.push(without_s());
    cases.push(one_register());
    cases
}

/// Shifts R0, R1 and R2 with C = 0 and with C = 1, to R3 to R8. The carries gather in R12.
fn case(topic: String, operand: impl Fn(u32) -> u32, values: [u32; 3]) -> Case {
    let clear = ops(CMN, 0, 14, plain(14));
    let set = ops(CMP, 0, 14, plain(14));
    let mut code = Vec::new();
    for rm in 0..3 {
        for (set_c, rd) in [(clear, 3 + 2 * rm), (set, 4 + 2 * rm)] {
            code.extend([set_c, movs(rd, operand(rm)), op(ADC, 12, 12, plain(12))]);
        }
    }
    Case::new(topic, &code)
        .r(0, values[0])
        .r(1, values[1])
        .r(2, values[2])
        .r(12, 0)
        .r(14, 0)
}

/// The flags stay.
fn without_s() -> Case {
    let code = [
        mov(3, by_amount(0, Shift::Lsl, 1)),
        mov(4, by_amount(0, Shift::Lsr, 0)),
        mov(5, by_amount(0, Shift::Asr, 0)),
        mov(6, by_amount(0, Shift::Ror, 0)),
        mov(7, by_register(0, Shift::Lsl, 1)),
        mov(8, by_register(0, Shift::Ror, 1)),
    ];
    Case::new("shifts without S", &code)
        .r(0, 0xC000_0003)
        .r(1, 32)
        .flags(0xF)
}

/// Rd, Rn, Rm and Rs the same.
fn one_register() -> Case {
    let code = [
        ops(ADD, 2, 2, by_register(2, Shift::Lsl, 2)),
        ops(SUB, 3, 3, by_amount(3, Shift::Asr, 1)),
    ];
    Case::new("one register everywhere", &code)
        .r(2, 5)
        .r(3, 0x8000_0000)
}
