//! The interpreter's records as the arrays of slot_core.h, and back.

use crate::archive::{PlainArray, RecordArray};
use interpreter::arm::{
    decode, Block, Branch, Instruction, Multiply, Offset, Operand, Processing, Single,
};
use interpreter::plain::Plain;

pub use interpreter::pipeline::{core_array, core_of};

pub const CORE_NAMES: [&str; 39] = [
    "r0",
    "r1",
    "r2",
    "r3",
    "r4",
    "r5",
    "r6",
    "r7",
    "r8",
    "r9",
    "r10",
    "r11",
    "r12",
    "r13",
    "r14",
    "pc",
    "flags",
    "ir1",
    "ir1 valid",
    "ir2",
    "ir2 valid",
    "ix",
    "ix valid",
    "phase",
    "address",
    "data",
    "base",
    "cycles",
    "cycles high",
    "retired",
    "retired high",
    "stop",
    "length",
    "sum n",
    "sum n high",
    "sum s",
    "sum s high",
    "sum i",
    "sum i high",
];

pub const PLAIN_NAMES: [&str; 19] = [
    "r0", "r1", "r2", "r3", "r4", "r5", "r6", "r7", "r8", "r9", "r10", "r11", "r12", "r13", "r14",
    "a", "flags", "stop", "length",
];

pub const RECORD_NAMES: [&str; 16] = [
    "class",
    "condition",
    "operation",
    "p",
    "u",
    "b or s",
    "w or accumulate",
    "l or link",
    "rn",
    "rd",
    "kind",
    "rotate or rm",
    "value or shift",
    "amount or rs",
    "list, offset or word",
    "nothing",
];

pub fn plain_array(plain: &Plain) -> PlainArray {
    let mut array = [0; 19];
    array[..15].copy_from_slice(&plain.r);
    array[15] = plain.a;
    array[16] = plain.flags;
    array[17] = plain.stop;
    array[18] = plain.length;
    array
}

pub fn plain_of(array: &PlainArray) -> Plain {
    Plain {
        r: array[..15].try_into().expect("fifteen registers"),
        a: array[15],
        flags: array[16],
        stop: array[17],
        length: array[18],
    }
}

/// A word's record, by the interpreter's decoder.
pub fn record_array(word: u32) -> RecordArray {
    let mut array = [0; 16];
    let instruction = decode(word);
    if instruction != Instruction::Other {
        array[1] = word >> 28;
    }
    match instruction {
        Instruction::Processing(it) => processing(&mut array, &it),
        Instruction::Single(it) => single(&mut array, &it),
        Instruction::Block(it) => block(&mut array, &it),
        Instruction::Branch(it) => branch(&mut array, &it),
        Instruction::Multiply(it) => multiply(&mut array, &it),
        Instruction::Other => {
            array[0] = 4;
            array[14] = word;
        }
    }
    array
}

fn processing(array: &mut RecordArray, it: &Processing) {
    array[2] = it.operation;
    array[5] = u32::from(it.sets);
    array[8] = it.rn as u32;
    array[9] = it.rd as u32;
    match it.operand {
        Operand::Constant { rotation, value } => operand(array, 0, rotation, value, 0),
        Operand::ByAmount { rm, shift, amount } => {
            operand(array, 1, rm as u32, shift as u32, amount)
        }
        Operand::ByRegister { rm, shift, rs } => {
            operand(array, 2, rm as u32, shift as u32, rs as u32)
        }
    }
}

fn single(array: &mut RecordArray, it: &Single) {
    array[0] = 1;
    array[3] = u32::from(it.before);
    array[4] = u32::from(it.up);
    array[5] = u32::from(it.byte);
    array[6] = u32::from(it.w);
    array[7] = u32::from(it.load);
    array[8] = it.rn as u32;
    array[9] = it.rd as u32;
    match it.offset {
        Offset::Number(number) => operand(array, 0, number >> 8, number & 0xFF, 0),
        Offset::Shifted { rm, shift, amount } => operand(array, 1, rm as u32, shift as u32, amount),
    }
}

fn block(array: &mut RecordArray, it: &Block) {
    array[0] = 2;
    array[3] = u32::from(it.before);
    array[4] = u32::from(it.up);
    array[5] = u32::from(it.s);
    array[6] = u32::from(it.w);
    array[7] = u32::from(it.load);
    array[8] = it.rn as u32;
    array[14] = it.list;
}

fn branch(array: &mut RecordArray, it: &Branch) {
    array[0] = 3;
    array[7] = u32::from(it.link);
    array[14] = it.distance >> 2 & 0x00FF_FFFF;
}

fn multiply(array: &mut RecordArray, it: &Multiply) {
    array[0] = 5;
    array[5] = u32::from(it.sets);
    array[6] = u32::from(it.accumulate);
    array[8] = it.rn as u32;
    array[9] = it.rd as u32;
    array[11] = it.rm as u32;
    array[13] = it.rs as u32;
}

fn operand(array: &mut RecordArray, kind: u32, first: u32, second: u32, third: u32) {
    array[10..14].copy_from_slice(&[kind, first, second, third]);
}

/// The word of a record, if `record_array` makes it of any word: the fields are put together
/// whatever they are, and the record of that word must be the same.
pub fn word_of(array: &RecordArray) -> Option<u32> {
    let shifted = array[11] | array[12] << 5;
    let operand = match array[10] {
        0 => array[11] << 8 | array[12],
        1 => shifted | array[13] << 7,
        _ => shifted | array[13] << 8 | 1 << 4,
    };
    let condition = array[1] << 28;
    let registers = array[8] << 16 | array[9] << 12;
    let transfer =
        array[3] << 24 | array[4] << 23 | array[5] << 22 | array[6] << 21 | array[7] << 20;
    let word = match array[0] {
        0 => {
            let constant = u32::from(array[10] == 0) << 25;
            condition | constant | array[2] << 21 | array[5] << 20 | registers | operand
        }
        1 => {
            let register = u32::from(array[10] != 0) << 25;
            condition | 1 << 26 | register | transfer | registers | operand
        }
        2 => condition | 1 << 27 | transfer | array[8] << 16 | array[14],
        3 => condition | 5 << 25 | array[7] << 24 | array[14],
        5 => {
            let registers = array[9] << 16 | array[8] << 12 | array[13] << 8 | array[11];
            condition | array[6] << 21 | array[5] << 20 | registers | 9 << 4
        }
        _ => array[14],
    };
    (record_array(word) == *array).then_some(word)
}

#[cfg(test)]
mod tests {
    use super::*;

    #[test]
    fn a_multiply() {
        let record = record_array(0xA03B_CD9E);
        assert_eq!(
            record,
            [5, 10, 0, 0, 0, 1, 1, 0, 12, 11, 0, 14, 0, 13, 0, 0]
        );
        assert_eq!(word_of(&record), Some(0xA03B_CD9E));
        assert_eq!(
            word_of(&[5, 0, 0, 0, 0, 0, 0, 0, 0, 0, 0, 0, 0, 0, 0, 0]),
            Some(0x90)
        );
    }

    /// A field that a multiply lacks, or one too wide; Other, or no class at all, with its word.
    #[test]
    fn no_multiply() {
        let record = record_array(0xA03B_CD9E);
        for place in [2, 3, 4, 7, 10, 12, 14, 15] {
            let mut other = record;
            other[place] = 1;
            assert_eq!(word_of(&other), None, "{place}");
        }
        for place in [1, 8, 9, 11, 13] {
            let mut other = record;
            other[place] = 16;
            assert_eq!(word_of(&other), None, "{place}");
        }
        for place in [5, 6] {
            let mut other = record;
            other[place] = 2;
            assert_eq!(word_of(&other), None, "{place}");
        }
        for class in [4, 6, 7, 8] {
            let mut other = [0; 16];
            other[0] = class;
            other[14] = 0xA03B_CD9E;
            assert_eq!(word_of(&other), None, "{class}");
        }
    }
}
