//! Single transfers.

use super::case::{data, Case};
use crate::arm::{shift_by_amount, Shift};
use crate::assembler::*;

const SHIFTS: [Shift; 4] = [Shift::Lsl, Shift::Lsr, Shift::Asr, Shift::Ror];

pub fn cases() -> Vec<Case> {
    let mut cases: Vec<Case> = (0..32).map(form).collect();
    for shift in SHIFTS {
        for amount in [0, 1, 31] {
            for up in [UP, 0] {
                let carry = (amount + up) % 3 == 0;
                cases.push(by_shift(shift, amount, up, carry));
                if shift == Shift::Ror && amount == 0 {
                    cases.push(by_shift(shift, amount, up, !carry));
                }
            }
        }
    }
    cases.extend(shared_registers());
    cases.extend(edges());
    cases.extend(about_a());
    cases
}

/// All of P, U, B, W and L, at each of the low two address bits.
fn form(bits: u32) -> Case {
    let bits = bits << 20;
    let code: Vec<u32> = [(0, 4, 8), (1, 5, 7), (2, 6, 9), (3, 7, 6)]
        .into_iter()
        .map(|(rn, rd, offset)| single(bits, rd, rn, offset))
        .collect();
    let name = if bits & LOAD != 0 { "load" } else { "store" };
    let case = Case::new(format!("{name}, bits {:02X}", bits >> 20), &code)
        .r(0, 0x20)
        .r(1, 0x2D)
        .r(2, 0x36)
        .r(3, 0x2B)
        .r(4, 0x8765_43F1)
        .r(5, 0x0FED_CB92)
        .flags(0x5);
    case.at(0x10, &data(0x10, 16))
}

/// The offset is R8 shifted; the bases are such that all addresses are in memory.
fn by_shift(shift: Shift, amount: u32, up: u32, carry: bool) -> Case {
    let rm = match shift {
        Shift::Lsl => 0x8000_0009,
        Shift::Lsr => 0xA000_0012,
        Shift::Asr => 0x9000_0014,
        Shift::Ror => 0x4000_0017,
    };
    let offset = shift_by_amount(shift, amount, rm, carry).value;
    let before = |address: u32| {
        if up == UP {
            address.wrapping_sub(offset)
        } else {
            address.wrapping_add(offset)
        }
    };
    let operand = by_amount(8, shift, amount);
    let code = [
        single_by(LOAD | BEFORE | up, 4, 0, operand),
        single_by(STORE | BEFORE | W | up, 5, 1, operand),
        single_by(LOAD | BYTE | up, 6, 2, operand),
        single_by(STORE | BYTE | BEFORE | up, 7, 3, operand),
    ];
    Case::new(
        format!(
            "offset {shift:?} {amount}, C {carry}, bits {:02X}",
            up >> 20
        ),
        &code,
    )
    .at(0x20, &data(0x20, 8))
    .r(0, before(0x21))
    .r(1, before(0x28))
    .r(2, 0x2E)
    .r(3, before(0x33))
    .r(8, rm)
    .flags(if carry { 0x2 } else { 0xD })
}

/// Rd, Rn and Rm the same, two by two.
fn shared_registers() -> Vec<Case> {
    let loads = [
        single(LOAD | UP, 0, 0, 4),
        single(LOAD | BEFORE | UP | W, 1, 1, 4),
        single(LOAD | BYTE | BEFORE | W, 2, 2, 3),
        single(LOAD | BYTE | UP | W, 3, 3, 3),
        ldr(4, 4, 2),
        single_by(LOAD | UP, 6, 5, plain(5)),
        single_by(LOAD | BEFORE | W, 7, 8, by_amount(8, Shift::Lsr, 1)),
        single_by(LOAD | BEFORE | UP, 10, 9, plain(10)),
        single_by(LOAD | UP, 11, 12, plain(11)),
        single_by(LOAD | UP, 13, 13, plain(13)),
    ];
    let stores = [
        single(STORE | UP, 0, 0, 4),
        single(STORE | BEFORE | UP | W, 1, 1, 4),
        single(STORE | BYTE | BEFORE | W, 2, 2, 3),
        single(STORE | BYTE | UP | W, 3, 3, 3),
        str(4, 4, 2),
        single_by(STORE | UP, 6, 5, plain(5)),
        single_by(STORE | BEFORE | W, 7, 8, by_amount(8, Shift::Lsr, 1)),
        single_by(STORE | BEFORE | UP, 10, 9, plain(10)),
        single_by(STORE | UP, 11, 12, plain(11)),
        single_by(STORE | UP, 13, 13, plain(13)),
    ];
    let bases = [
        0x40, 0x41, 0x52, 0x53, 0x54, 0x58, 0x35, 0xB8, 0x34, 0x45, 0x1C, 0x55, 0x60, 0x70,
    ];
    let mut cases = Vec::new();
    for (name, code) in [("loads", loads), ("stores", stores)] {
        let case = Case::new(format!("{name} of shared registers"), &code);
        let case = bases
            .into_iter()
            .enumerate()
            .fold(case, |case, (name, at)| case.r(name, at));
        cases.push(case.at(0x30, &data(0x30, 20)));
    }
    cases
}

/// Far bases, and the ends of memory.
fn edges() -> Vec<Case> {
    let wraps = [
        ldr(4, 0, 0xFFF),
        single(LOAD | BEFORE, 5, 1, 0xFFF),
        single(STORE | BEFORE | UP | W, 6, 2, 0xFFF),
        single(STORE | BEFORE | W, 7, 3, 0xFFF),
    ];
    let wraps = Case::new("bases that wrap", &wraps)
        .at(0x20, &data(0x20, 8))
        .r(0, 0xFFFF_F021)
        .r(1, 0x1026)
        .r(2, 0xFFFF_F02D)
        .r(3, 0x102F);

    let ends = [
        single(LOAD | UP, 4, 0, 0x300),
        single(LOAD | BYTE | UP, 5, 1, 0xFFF),
        single(STORE | UP, 6, 2, 0x10),
        single(STORE | BYTE, 7, 3, 0xFFF),
        ldr(8, 14, 0),
        single(LOAD | BEFORE | BYTE, 9, 14, 0),
    ];
    let ends = Case::new("the ends of memory", &ends)
        .at(0x20, &data(0x20, 8))
        .r(0, 0x3C)
        .r(1, 0x3F)
        .r(2, 0x3D)
        .r(3, 0x3E)
        .r(14, 0);

    let long = [
        str(4, 0, 0xFFC),
        ldr(5, 0, 0xFFE),
        single(STORE | BYTE | BEFORE | UP, 6, 0, 0xFFF),
        ldr(7, 0, 0xFFC),
        single(LOAD | BYTE | UP, 8, 1, 4),
        ldr(9, 0, 0xFFD),
    ];
    let long = Case::new("the end of the longest memory", &long)
        .length(65_536)
        .r(0, 0xF000)
        .r(1, 0xFFFE)
        .r(4, 0x1234_5678);

    let zero = [
        single(LOAD | BEFORE | UP | W, 4, 0, 0),
        single(STORE | UP | W, 5, 1, 0),
    ];
    let zero = Case::new("offset 0", &zero)
        .at(0x20, &data(0x20, 4))
        .r(0, 0x22)
        .r(1, 0x2B);

    // The twelve bits of a number may have bits 4 and 7 and end in 15.
    let numbers = [
        ldr(4, 0, 0x01F),
        ldr(5, 1, 0x09F),
        single(LOAD | UP, 6, 0, 0xF9F),
    ];
    let numbers = Case::new("numbers that look like registers", &numbers)
        .at(0x20, &data(0x20, 8))
        .r(0, 0x20)
        .r(1, 0x2C_u32.wrapping_sub(0x09F));
    vec![wraps, ends, long, zero, numbers]
}

/// Transfers near A: loads anywhere, stores to A and to A+12, which is done afterwards.
fn about_a() -> Vec<Case> {
    let loads = [
        single(LOAD | BEFORE, 0, 15, 8),
        single(LOAD | BEFORE, 1, 15, 4),
        single(LOAD | BEFORE, 2, 15, 0),
        single(LOAD | BEFORE, 3, 15, 12),
        ldr(4, 15, 0),
        ldr(5, 15, 4),
        ldr(6, 15, 8),
    ];
    let loads = Case::new("loads from A-4 to A+16", &loads).at(0x1C, &data(0x1C, 4));
    let to_a = [single(STORE | BEFORE, 0, 15, 8), mov(1, number(1))];
    let to_a = Case::new("a store to A", &to_a);
    let ahead = [
        str(0, 15, 4),
        mov(1, number(1)),
        mov(2, number(2)),
        SWI,
        mov(4, number(4)),
    ];
    let ahead = Case::new("a store to A+12, done afterwards", &ahead).r(0, mov(3, number(3)));
    let byte = [
        single(STORE | BYTE | BEFORE | UP, 0, 15, 4),
        0,
        0,
        mov(3, number(3)),
    ];
    let byte = Case::new("a stored byte at A+12, done afterwards", &byte).r(0, 0x99);
    let twice = [
        mov(1, number(1)),
        single(STORE | BEFORE, 0, 15, 0xC),
        ops(ADD, 2, 2, number(1)),
        branch_to(12, 0),
    ];
    let twice = Case::new("a loop that changes its start", &twice)
        .r(0, mov(1, number(9)))
        .r(2, 0)
        .count(6);
    vec![loads, to_a, ahead, byte, twice]
}
