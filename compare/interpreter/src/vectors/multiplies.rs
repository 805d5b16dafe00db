//! Multiplies: every m at both ends of its range, shared registers, flags, what of 23 is theirs, and
//! the words beside them.

use super::case::Case;
use super::stops::at_20;
use crate::assembler::*;
use crate::durations::ends;

pub fn cases() -> Vec<Case> {
    let mut cases: Vec<Case> = (1..=16).map(both_ends).collect();
    cases.extend(values());
    cases.extend(shared_registers());
    cases.extend(every_register());
    cases.extend(unused_rn());
    cases.extend(flags());
    cases.extend(conditions());
    cases.extend(forbidden());
    cases.extend(others());
    cases.push(beside());
    cases.push(factorial());
    cases.push(sum_of_products());
    cases
}

/// All four forms with the least and the greatest Rs of one m, to R4 to R11; the flags after those
/// with S in R12 to R14 and at the end.
fn both_ends(m: u32) -> Case {
    let code = [
        mul(4, 2, 0),
        mul(5, 2, 1),
        mla(6, 2, 0, 3),
        mla(7, 2, 1, 3),
        muls(8, 2, 0),
        keep_flags(12),
        muls(9, 2, 1),
        keep_flags(13),
        mlas(10, 2, 0, 3),
        keep_flags(14),
        mlas(11, 2, 1, 3),
    ];
    let [least, greatest] = ends(m);
    Case::new(format!("multiplies of {m} and 1 cycles"), &code)
        .r(0, least)
        .r(1, greatest)
        .r(2, 0x9E37_79B9)
        .r(3, 0x8000_0005)
        .flags([0x0, 0x3, 0xD, 0x6][m as usize % 4])
}

/// Every two of four values, to R4 to R13; R14 is added with the two the other way round.
fn values() -> Vec<Case> {
    let sets = [
        [0, 1, 0xFFFF_FFFF, 0x8000_0000],
        [2, 0x7FFF_FFFF, 0x8000_0001, 0xFFFF_FFFE],
        [0xFFFF, 0x0001_0000, 0xAAAA_AAAB, 0x1234_5678],
    ];
    let pairs: Vec<(u32, u32)> = (0..4).flat_map(|x| (x..4).map(move |y| (x, y))).collect();
    let code = |form: fn(u32, u32, u32) -> u32| {
        let word = |(rd, &(x, y))| form(rd, x, y);
        (4..).zip(&pairs).map(word).collect::<Vec<u32>>()
    };
    let mut cases = Vec::new();
    for set in sets {
        let products = code(mul);
        let sums = code(|rd, x, y| mlas(rd, y, x, 14));
        for (name, code) in [("products", products), ("sums of products", sums)] {
            let case = Case::new(format!("{name} of {set:X?}"), &code).r(14, 0xC000_0000);
            let with = |case: Case, (name, value)| case.r(name, value);
            cases.push(set.into_iter().enumerate().fold(case, with));
        }
    }
    cases
}

/// Rd, Rn, Rs and Rm the same, as far as they may be. Rd as Rs makes m another one afterwards.
fn shared_registers() -> Vec<Case> {
    let code = [
        mul(0, 4, 0),
        mla(1, 4, 1, 5),
        mla(2, 4, 6, 2),
        mla(3, 4, 3, 3),
        muls(7, 4, 7),
        keep_flags(8),
        mlas(9, 4, 9, 9),
        keep_flags(10),
        mul(11, 4, 4),
        mla(12, 4, 4, 4),
        mla(13, 4, 6, 4),
    ];
    let case = |(rs, rm): (u32, u32)| {
        let case = Case::new(format!("shared registers, {rs:X} by {rm:X}"), &code).r(4, rm);
        [0, 1, 3, 6, 7, 9]
            .into_iter()
            .fold(case, |case, name| case.r(name, rs))
    };
    let values = [
        (0x2000_0000, 8),
        (1, 0xFFFF_FFFF),
        (7, 0x8000_0001),
        (0x1FFF_FFFF, 2),
    ];
    values.map(case).to_vec()
}

/// Each register in each field.
fn every_register() -> Vec<Case> {
    let after = |name: u32, by: u32| (name + by) % 15;
    let add: Vec<u32> = (0..15)
        .map(|name| mla(name, after(name, 1), after(name, 2), after(name, 3)))
        .collect();
    let set: Vec<u32> = (0..15)
        .map(|name| muls(name, after(name, 14), after(name, 7)))
        .collect();
    vec![
        Case::new("MLA of every register", &add),
        Case::new("MULS of every register", &set),
    ]
}

/// A MUL whose Rn is another register, Rm, Rs and Rd.
fn unused_rn() -> Vec<Case> {
    let case = |(topic, bits)| {
        let code: Vec<u32> = [(4, 1), (5, 14), (6, 2), (7, 3), (8, 8)]
            .into_iter()
            .map(|(rd, rn)| multiply(bits, rd, 2, 3, rn))
            .collect();
        Case::new(topic, &code).flags(0x5)
    };
    [("MUL with an Rn", 0), ("MULS with an Rn", SETS)]
        .map(case)
        .to_vec()
}

/// A zero, a negative and a positive product, and a zero and a negative sum.
fn flags() -> Vec<Case> {
    let words = [
        multiply(0, 4, 0, 1, 13),
        multiply(0, 5, 0, 2, 13),
        multiply(0, 6, 0, 3, 13),
        multiply(ACCUMULATE, 7, 0, 2, 13),
        multiply(ACCUMULATE, 12, 0, 1, 14),
    ];
    let setting: Vec<u32> = (8..)
        .zip(words)
        .flat_map(|(kept, word)| [word | SETS, keep_flags(kept)])
        .take(2 * words.len() - 1)
        .collect();
    let case = |topic: &str, code: &[u32], flags| {
        Case::new(format!("{topic} under flags {flags:X}"), code)
            .r(0, 0x0001_0000)
            .r(1, 0x0001_0000)
            .r(2, 0x0000_8000)
            .r(3, 3)
            .r(13, 0x8000_0000)
            .r(14, 0xFFFF_FFFF)
            .flags(flags)
    };
    let mut cases = Vec::new();
    for flags in [0x0, 0x1, 0x2, 0x3, 0xC, 0xD, 0xE, 0xF] {
        cases.push(case("multiplies with S", &setting, flags));
    }
    for flags in [0x0, 0xF] {
        cases.push(case("multiplies without S", &words, flags));
    }
    cases
}

/// One on each condition.
fn conditions() -> Vec<Case> {
    let word = |name: u32| mla(name, (name + 1) % 15, (name + 2) % 15, name);
    let mut code: Vec<u32> = (0..15).map(|name| on(name, word(name))).collect();
    code.push(on(NEVER, word(0)));
    [0x0, 0x6, 0x9, 0xF]
        .map(|flags| {
            Case::new(format!("multiplies on conditions, flags {flags:X}"), &code).flags(flags)
        })
        .to_vec()
}

/// Rules 9 and 10, each field and both together, and none of them under a condition that fails.
fn forbidden() -> Vec<Case> {
    let words = [
        ("MUL, Rd=Rm", mul(1, 1, 2)),
        ("MULS, Rd=Rm", muls(14, 14, 2)),
        ("MLA, Rd=Rm", mla(0, 0, 2, 3)),
        ("MLAS, all one register", mlas(4, 4, 4, 4)),
        ("MUL, Rd=15", mul(15, 1, 2)),
        ("MLAS, Rd=15", mlas(15, 1, 2, 3)),
        ("MUL, Rm=15", mul(1, 15, 2)),
        ("MLA, Rm=15", mla(1, 15, 2, 3)),
        ("MUL, Rs=15", mul(1, 2, 15)),
        ("MLA, Rs=15", mla(1, 2, 15, 3)),
        ("MUL, unused Rn=15", multiply(0, 1, 2, 3, 15)),
        ("MULS, unused Rn=15", multiply(SETS, 1, 2, 3, 15)),
        ("MLA, Rn=15", mla(1, 2, 3, 15)),
        ("MUL, Rd=Rm, Rs=15", mul(1, 1, 15)),
        ("MUL, Rd=Rm, unused Rn=15", multiply(0, 1, 1, 2, 15)),
        ("MLA, Rd=Rm=15", mla(15, 15, 2, 3)),
        ("MLAS, all 15", mlas(15, 15, 15, 15)),
    ];
    let mut cases: Vec<Case> = words
        .iter()
        .map(|&(name, word)| at_20(&format!("23 {name}"), word))
        .collect();
    let skipped: Vec<u32> = words.iter().map(|&(_, word)| on(1, word)).collect();
    cases.push(Case::new("forbidden multiplies that fail", &skipped).flags(0x4));
    cases
}

/// Words with bits 7 and 4 that are Other for one bit or more, whatever their registers.
fn others() -> Vec<Case> {
    let words = [
        ("bit 22", 0xE042_0391),
        ("bit 23", 0xE082_0391),
        ("bits 23 and 22", 0xE0C2_0391),
        ("bit 24", 0xE102_0391),
        ("bits 24 to 20", 0xE1F2_4391),
        ("SWP", SWP),
        ("SWPB", SWP | BYTE),
        ("1011", 0xE002_03B1),
        ("1011, accumulate", 0xE022_43B1),
        ("1101", 0xE002_03D1),
        ("1101, S", 0xE012_03D1),
        ("1111", 0xE002_03F1),
        ("1111, accumulate and S", 0xE032_43F1),
        ("before 23, bit 23 and Rd=Rm", 0xE081_0391),
        ("before 23, 1011 and all 15", 0xE00F_FFBF),
    ];
    words
        .into_iter()
        .map(|(name, word)| at_20(&format!("22 beside a multiply, {name}"), word))
        .collect()
}

/// Words a bit away from a multiply that process: 0001 and 1000 in bits 7..4, a constant.
fn beside() -> Case {
    let code = [
        mul(0, 1, 2) & !(1 << 7),
        muls(0, 1, 2) & !(1 << 4),
        mla(0, 1, 2, 3) & !(1 << 7),
        mlas(0, 1, 2, 3) & !(1 << 4),
        mlas(0, 1, 2, 4) | 1 << 25,
    ];
    Case::new("words beside a multiply that process", &code)
        .r(1, 0x1234_5678)
        .r(2, 5)
        .flags(0x3)
}

/// 13 and all below, Rd being Rs.
fn factorial() -> Case {
    let code = [
        mov(0, number(1)),
        mov(1, number(13)),
        mul(0, 1, 0),
        ops(SUB, 1, 1, number(1)),
        on(1, branch_to(16, 8)),
        SWI,
    ];
    Case::new("a factorial", &code).count(100)
}

/// Four products of words in memory, the sum stored behind them.
fn sum_of_products() -> Case {
    let code = [
        mov(4, number(4)),
        mov(5, number(0)),
        single(LOAD | UP, 0, 8, 4),
        single(LOAD | UP, 1, 9, 4),
        mlas(5, 0, 1, 5),
        ops(SUB, 4, 4, number(1)),
        on(1, branch_to(24, 8)),
        str(5, 9, 0),
        SWI,
    ];
    let samples = [0x0000_7FFF, 0xFFFF_8000, 0x0000_0123, 0xFFFF_FFFF];
    let weights = [0x0000_0003, 0xFFFF_FFF4, 0x0000_4000, 0x0000_0000];
    Case::new("a sum of products", &code)
        .at(0x40, &samples)
        .at(0x50, &weights)
        .length(0x64)
        .r(8, 0x40)
        .r(9, 0x50)
        .count(100)
}
