//! Multiplies: how long they take by Rs, what they leave, and where the budget of 64 ends in them.

use super::case::Case;
use crate::assembler::*;
use crate::durations::ends;

pub fn cases() -> Vec<Case> {
    let mut cases: Vec<Case> = (1..=16).flat_map(both_ends).collect();
    cases.extend(shared_registers());
    cases.extend(flags());
    cases.extend(stops());
    cases.extend(budgets());
    cases
}

/// Sets the flags, with one cycle.
fn set_flags(flags: u32) -> u32 {
    ops(TEQ, 15, 0, rotated(2, flags))
}

/// Two forms with the least Rs of an m, the other two with the greatest.
fn both_ends(m: u32) -> [Case; 2] {
    let [least, greatest] = ends(m);
    let case = |rs: u32, forms: [u32; 2]| {
        let words = [
            ldr(1, 15, 12),
            ldr(2, 15, 12),
            forms[0],
            forms[1],
            SWI,
            rs,
            0x9E37_79B9,
        ];
        Case::new(format!("22 multiplies by {rs:X}, m {m}"), &words)
    };
    [
        case(least, [muls(3, 2, 1), mla(4, 2, 1, 3)]),
        case(greatest, [mul(3, 2, 1), mlas(4, 2, 1, 3)]),
    ]
}

/// Rd as Rs, whose old value counts, and as Rn.
fn shared_registers() -> Vec<Case> {
    let long = mov(1, rotated(2, 2)); // 2^29, m 16
    let one = mov(1, number(1));
    let eight = mov(2, number(8));
    let ones = op(MVN, 2, 0, number(0));
    vec![
        Case::new("22 Rd Rs, to 0", &[long, eight, muls(1, 2, 1), SWI]),
        Case::new(
            "22 Rd Rs, from 1 and again",
            &[one, ones, mul(1, 2, 1), muls(1, 2, 1), SWI],
        ),
        Case::new(
            "22 Rd Rn",
            &[long, eight, mla(3, 2, 1, 3), mlas(2, 1, 3, 2), SWI],
        ),
        Case::new("22 Rd Rs Rn", &[one, ones, mlas(1, 2, 1, 1), SWI]),
        Case::new(
            "22 an unused Rn",
            &[long, eight, multiply(SETS, 3, 2, 2, 1), SWI],
        ),
    ]
}

/// The result's N and Z, the old C and V.
fn flags() -> Vec<Case> {
    let with = |topic: &str, flags, word| {
        let words = [
            mov(1, rotated(8, 1)), // 0x10000
            mov(2, rotated(9, 2)), // 0x8000
            set_flags(flags),
            word,
            SWI,
        ];
        Case::new(format!("22 {topic} under flags {flags:X}"), &words)
    };
    vec![
        with("zero product", 0x3, muls(3, 1, 1)),
        with("zero product", 0x8, muls(3, 1, 1)),
        with("negative product", 0x6, muls(3, 1, 2)),
        with("negative sum", 0x5, mlas(3, 1, 2, 1)),
        with("positive product", 0xF, muls(3, 2, 2)),
        with("zero product without S", 0xB, mul(3, 1, 1)),
    ]
}

fn stops() -> Vec<Case> {
    let rs = mov(1, rotated(2, 2));
    let failed = [
        mul(1, 1, 2),
        muls(3, 1, 1),
        mla(15, 1, 1, 1),
        multiply(0, 1, 2, 3, 15),
    ];
    let mut words = failed.map(|word| on(0, word)).to_vec();
    words.push(SWI);
    let long = [mul(2, 1, 1), SWI];
    vec![
        Case::new("22 past multiplies on failed conditions", &words),
        Case::new("21 past a multiply", &[rs, rs, rs, mul(2, 1, 1)]).length(16),
        Case::with_left("budget: spent at a stop, by a multiply", 17, &[rs], &long),
        Case::with_left("22 with 1 cycle left, by a multiply", 18, &[rs], &long),
    ]
}

/// Rd and flags are as before up to the last cycle.
fn budgets() -> Vec<Case> {
    // The operand for Rs, its m and the word.
    let multiplies = [
        (number(1), 1, muls(4, 2, 1)),
        (number(5), 2, mul(4, 2, 1)),
        (number(31), 3, mla(4, 2, 1, 3)),
        (rotated(10, 1), 7, mlas(4, 2, 1, 3)), // 0x1000
        (rotated(2, 2), 16, mlas(1, 2, 1, 3)), // 2^29, Rd being Rs
    ];
    let mut cases = Vec::new();
    for (rs, m, word) in multiplies {
        let before = [
            mov(1, rs),
            mov(2, number(0x21)),
            mov(3, number(9)),
            set_flags(0xF),
        ];
        let cycles = m + 1;
        for left in 1..=cycles {
            let topic = format!("budget: multiply, {left} of {cycles}");
            cases.push(Case::with_left(topic, left, &before, &[word, SWI]));
        }
    }
    cases
}
