//! Words put together from their fields, for programs and tests.

use crate::arm::Shift;

// Operations 0 to 15.
pub const AND: u32 = 0;
pub const EOR: u32 = 1;
pub const SUB: u32 = 2;
pub const RSB: u32 = 3;
pub const ADD: u32 = 4;
pub const ADC: u32 = 5;
pub const SBC: u32 = 6;
pub const RSC: u32 = 7;
pub const TST: u32 = 8;
pub const TEQ: u32 = 9;
pub const CMP: u32 = 10;
pub const CMN: u32 = 11;
pub const ORR: u32 = 12;
pub const MOV: u32 = 13;
pub const BIC: u32 = 14;
pub const MVN: u32 = 15;

// Bits of transfers.
pub const BEFORE: u32 = 1 << 24;
pub const UP: u32 = 1 << 23;
pub const BYTE: u32 = 1 << 22;
pub const S_BIT: u32 = 1 << 22;
pub const W: u32 = 1 << 21;
pub const LOAD: u32 = 1 << 20;
pub const STORE: u32 = 0;

// Bits of multiplies.
pub const ACCUMULATE: u32 = 1 << 21;
pub const SETS: u32 = 1 << 20;

pub const PC: u32 = 15;
pub const ALWAYS: u32 = 14;
pub const NEVER: u32 = 15;

/// SWI 0, an Other word.
pub const SWI: u32 = 0xEF00_0000;

/// SWP R0, R2, [R1], an Other word near the multiplies.
pub const SWP: u32 = 0xE101_0092;

/// The same word under another condition.
pub fn on(condition: u32, word: u32) -> u32 {
    condition << 28 | word & 0x0FFF_FFFF
}

fn shift_bits(shift: Shift) -> u32 {
    (shift as u32) << 5
}

/// The operand `value` rotated right by twice `rotation`.
pub fn rotated(rotation: u32, value: u32) -> u32 {
    1 << 25 | rotation << 8 | value
}

pub fn number(value: u32) -> u32 {
    rotated(0, value)
}

/// The operand Rm, LSL 0.
pub fn plain(rm: u32) -> u32 {
    rm
}

pub fn by_amount(rm: u32, shift: Shift, amount: u32) -> u32 {
    amount << 7 | shift_bits(shift) | rm
}

pub fn by_register(rm: u32, shift: Shift, rs: u32) -> u32 {
    rs << 8 | shift_bits(shift) | 1 << 4 | rm
}

/// A processing word without S, always.
pub fn op(operation: u32, rd: u32, rn: u32, operand: u32) -> u32 {
    ALWAYS << 28 | operation << 21 | rn << 16 | rd << 12 | operand
}

/// A processing word with S, always.
pub fn ops(operation: u32, rd: u32, rn: u32, operand: u32) -> u32 {
    op(operation, rd, rn, operand) | 1 << 20
}

pub fn mov(rd: u32, operand: u32) -> u32 {
    op(MOV, rd, 0, operand)
}

pub fn movs(rd: u32, operand: u32) -> u32 {
    ops(MOV, rd, 0, operand)
}

/// Puts the flags, with an address, into Rd.
pub fn keep_flags(rd: u32) -> u32 {
    mov(rd, plain(PC))
}

/// A multiply with all its fields; `bits` are of ACCUMULATE and SETS.
pub fn multiply(bits: u32, rd: u32, rm: u32, rs: u32, rn: u32) -> u32 {
    ALWAYS << 28 | bits | rd << 16 | rn << 12 | rs << 8 | 9 << 4 | rm
}

/// MUL Rd, Rm, Rs.
pub fn mul(rd: u32, rm: u32, rs: u32) -> u32 {
    multiply(0, rd, rm, rs, 0)
}

/// MULS Rd, Rm, Rs.
pub fn muls(rd: u32, rm: u32, rs: u32) -> u32 {
    multiply(SETS, rd, rm, rs, 0)
}

/// MLA Rd, Rm, Rs, Rn.
pub fn mla(rd: u32, rm: u32, rs: u32, rn: u32) -> u32 {
    multiply(ACCUMULATE, rd, rm, rs, rn)
}

/// MLAS Rd, Rm, Rs, Rn.
pub fn mlas(rd: u32, rm: u32, rs: u32, rn: u32) -> u32 {
    multiply(ACCUMULATE | SETS, rd, rm, rs, rn)
}

/// A single transfer by a number of 12 bits; `bits` are of BEFORE, UP, BYTE, W and LOAD.
pub fn single(bits: u32, rd: u32, rn: u32, offset: u32) -> u32 {
    ALWAYS << 28 | 1 << 26 | bits | rn << 16 | rd << 12 | offset
}

/// A single transfer by a shifted register.
pub fn single_by(bits: u32, rd: u32, rn: u32, offset: u32) -> u32 {
    single(bits, rd, rn, offset) | 1 << 25
}

/// LDR Rd, [Rn, #offset].
pub fn ldr(rd: u32, rn: u32, offset: u32) -> u32 {
    single(LOAD | BEFORE | UP, rd, rn, offset)
}

/// STR Rd, [Rn, #offset].
pub fn str(rd: u32, rn: u32, offset: u32) -> u32 {
    single(STORE | BEFORE | UP, rd, rn, offset)
}

/// A block transfer; `bits` are of BEFORE, UP, S_BIT, W and LOAD.
pub fn block(bits: u32, rn: u32, list: u32) -> u32 {
    ALWAYS << 28 | 1 << 27 | bits | rn << 16 | list
}

/// The list of these registers.
pub fn list(names: &[u32]) -> u32 {
    names.iter().fold(0, |list, name| list | 1 << name)
}

/// A branch by so many words past A+8.
pub fn branch(offset: i32) -> u32 {
    ALWAYS << 28 | 5 << 25 | offset as u32 & 0x00FF_FFFF
}

pub fn branch_link(offset: i32) -> u32 {
    branch(offset) | 1 << 24
}

/// A branch from one address to another.
pub fn branch_to(from: u32, to: u32) -> u32 {
    branch((to as i32 - from as i32 - 8) / 4)
}
