//! Every stop, and words that come close to one.

use super::case::{data, Case};
use crate::arm::Shift;
use crate::assembler::*;

pub fn cases() -> Vec<Case> {
    let mut cases = no_word();
    cases.extend(others());
    cases.extend(forbidden());
    cases.extend(outside());
    cases.extend(outside_in_blocks());
    cases.extend(fetched());
    cases.extend(fetched_in_blocks());
    cases
}

/// A case of one word at 20, after one that counts, in a memory of 64 bytes.
pub fn at_20(topic: &str, word: u32) -> Case {
    Case::new(topic, &[])
        .at(0x1C, &[mov(14, number(1)), word])
        .entry(0x1C)
        .flags(0x6)
        .count(3)
}

fn no_word() -> Vec<Case> {
    let end = Case::new("21 past the end", &[])
        .at(0x3C, &[mov(0, number(1))])
        .entry(0x3C)
        .count(2);
    let failed = Case::new("21 past a failed condition", &[])
        .at(0x3C, &[on(NEVER, SWI)])
        .entry(0x3C)
        .count(5);
    let zeros = Case::new("21 past zeros", &[]).length(16).count(5);
    let stored = at_20("21 by a stored counter", mov(15, rotated(15, 0x10)));
    let high = at_20("21 by a counter of all ones", op(MVN, 15, 0, number(0)));
    let branched = at_20("21 by a branch", branch(6));
    let back = at_20("21 by a branch below 0", branch(-12));
    let loaded = at_20("21 by a load", ldr(15, 15, 0)).at(0x28, &[0xF3FF_FFFF]);
    let held = Case::new("21 of a record outside", &[mov(0, number(1))])
        .entry(0x40)
        .record(0)
        .count(1);
    let far = Case::new("21 of a record far outside", &[mov(0, number(1))])
        .entry(0x03FF_FFFC)
        .record(0)
        .count(1);
    vec![
        end, failed, zeros, stored, high, branched, back, loaded, held, far,
    ]
}

fn others() -> Vec<Case> {
    let words = [
        ("long multiply", 0xE082_0391),
        ("long multiply and add", 0xE0A2_4391),
        ("swap", 0xE101_2093),
        ("halfword", 0xE1D1_00B0),
        ("MOV with bits 7 and 4", 0xE1A0_0091),
        ("CMP without S with bits 7 and 4", 0xE140_0090),
        ("load with bit 4", 0xE791_0012),
        ("store of R15 as a byte with bit 4", 0xE7C1_F012),
        ("coprocessor load", 0xEC10_0000),
        ("coprocessor operation", 0xEE00_0000),
        ("coprocessor transfer", 0xEE10_0110),
        ("SWI", 0xEF12_3456),
        ("SWI under a condition", 0x0F00_0000),
    ];
    words
        .into_iter()
        .map(|(name, word)| at_20(&format!("22 {name}"), word))
        .collect()
}

fn forbidden() -> Vec<Case> {
    let words = [
        ("Rs=15", mov(0, by_register(1, Shift::Lsl, 15))),
        (
            "Rs=15 with S to R15",
            movs(15, by_register(15, Shift::Ror, 15)),
        ),
        ("TST without S", op(TST, 0, 1, plain(2))),
        ("TEQ without S, Rd=15", op(TEQ, 15, 1, plain(2))),
        ("CMP without S", op(CMP, 0, 1, number(2))),
        (
            "CMN without S",
            op(CMN, 0, 1, by_register(2, Shift::Lsl, 3)),
        ),
        ("base 15, P=0", single(LOAD | UP, 0, 15, 4)),
        ("base 15, P=0, store", single(STORE | UP, 0, 15, 0x10)),
        ("base 15, P=0, W=1", single(LOAD | W, 0, 15, 4)),
        (
            "base 15, P=1, W=1",
            single(LOAD | BEFORE | UP | W, 0, 15, 4),
        ),
        (
            "base 15, P=1, W=1, store",
            single(STORE | BEFORE | UP | W, 0, 15, 4),
        ),
        ("offset 15", single_by(LOAD | BEFORE | UP, 0, 1, plain(15))),
        (
            "offset 15, store after",
            single_by(STORE | UP, 0, 1, by_amount(15, Shift::Lsr, 28)),
        ),
        ("byte to R15", single(LOAD | BYTE | BEFORE | UP, 15, 1, 0)),
        ("byte of R15", single(STORE | BYTE | BEFORE | UP, 15, 1, 0)),
        ("block load, base 15", block(LOAD | UP, 15, 1)),
        ("block store, base 15", block(STORE | BEFORE, 15, 0x8000)),
        ("block load, S=1", block(LOAD | UP | S_BIT, 1, 1)),
        (
            "block load of R15, S=1",
            block(LOAD | UP | S_BIT | W, 1, 0x8001),
        ),
        ("block store, S=1", block(STORE | UP | S_BIT, 1, 0x4002)),
        ("block load of nothing", block(LOAD | UP | W, 1, 0)),
        ("block store of nothing", block(STORE | BEFORE, 1, 0)),
        ("before 24, byte to R15", single(LOAD | BYTE | UP, 15, 2, 0)),
        ("before 24, S=1", block(LOAD | UP | S_BIT, 2, 3)),
        ("before 25, base 15", single(STORE | UP, 0, 15, 0)),
    ];
    let mut cases: Vec<Case> = words
        .into_iter()
        .map(|(name, word)| {
            at_20(&format!("23 {name}"), word)
                .r(1, 0x30)
                .r(2, 0x8000_0000)
        })
        .collect();
    let near = [
        mov(3, by_amount(1, Shift::Lsl, 30)),
        mov(4, rotated(15, 0x1F)),
        ldr(5, 1, 15),
        single_by(LOAD | BEFORE | UP, 6, 1, by_amount(14, Shift::Lsr, 31)),
        ops(TST, 15, 1, number(15)),
        single(STORE | UP, 15, 1, 4),
        mov(7, by_register(15, Shift::Lsl, 1)),
    ];
    cases.push(
        Case::new("close to 23", &near)
            .at(0x28, &data(0x28, 6))
            .r(1, 0x28),
    );
    cases
}

fn outside() -> Vec<Case> {
    let words = [
        ("load at the length", ldr(0, 1, 0x40)),
        (
            "byte load at the length",
            single(LOAD | BYTE | BEFORE | UP, 0, 1, 0x40),
        ),
        ("store at the length", str(0, 1, 0x40)),
        (
            "byte store at the length",
            single(STORE | BYTE | BEFORE | UP, 0, 1, 0x40),
        ),
        (
            "load below 0, changed base",
            single(LOAD | BEFORE | W, 0, 1, 1),
        ),
        (
            "store below 0, changed base",
            single(STORE | BEFORE | W, 0, 1, 4),
        ),
        ("load at 80000000", single(LOAD | UP, 0, 2, 4)),
        ("load at 04000000", ldr(0, 3, 0)),
        ("store after, outside", single(STORE, 0, 2, 0xFFF)),
        ("load of R15", single(LOAD | UP | W, 15, 2, 4)),
        ("store of R15", str(15, 2, 4)),
        (
            "load by register",
            single_by(LOAD | BEFORE | UP, 0, 1, by_amount(14, Shift::Lsl, 6)),
        ),
        ("load about R15", ldr(0, 15, 0x18)),
        ("store about R15", single(STORE | BEFORE, 0, 15, 0x29)),
    ];
    let mut cases: Vec<Case> = words
        .into_iter()
        .map(|(name, word)| at_20(&format!("24 {name}"), word))
        .map(|case| case.r(1, 0).r(2, 0x8000_0000).r(3, 0x0400_0000))
        .collect();
    let close = [
        ldr(3, 1, 0x3C),
        ldr(4, 1, 0x3F),
        single(LOAD | BYTE | BEFORE | UP, 5, 1, 0x3F),
        single(STORE | UP, 6, 2, 0x40),
        single(STORE | BYTE, 7, 8, 0x40),
        single(LOAD | BEFORE, 9, 15, 0x1C),
    ];
    let close = Case::new("close to 24", &close).at(0x30, &data(0x30, 4));
    cases.push(close.r(1, 0).r(2, 0x3C).r(8, 0x3B));
    cases.push(
        Case::new("24 at 65536", &[ldr(0, 1, 0), ldr(0, 1, 4)])
            .length(65_536)
            .r(1, 0xFFFC),
    );
    cases
}

/// A block of R1 to R3 that leaves memory at its first or at its last address, and the same block
/// one word further in.
fn outside_in_blocks() -> Vec<Case> {
    let registers = list(&[1, 2, 3]);
    let first = [
        ("increment after", UP, 0xFFFF_FFFC),
        ("increment before", UP | BEFORE, 0xFFFF_FFF8),
        ("decrement after", 0, 4),
        ("decrement before", BEFORE, 8),
    ];
    let last = [
        ("increment after", UP, 0x38),
        ("increment before", UP | BEFORE, 0x34),
        ("decrement after", 0, 0x40),
        ("decrement before", BEFORE, 0x44),
    ];
    let mut cases = Vec::new();
    for (index, (name, bits, base)) in first.into_iter().enumerate() {
        let load = if index % 2 == 0 { LOAD } else { STORE };
        let word = block(bits | load | W, 4, registers);
        cases.push(at_20(&format!("24 at the first address, {name}"), word).r(4, base));
        let near = block(bits | LOAD | W, 4, registers);
        cases.push(
            at_20(&format!("close to 24 at the first address, {name}"), near)
                .r(4, base.wrapping_add(4))
                .count(2),
        );
    }
    for (index, (name, bits, base)) in last.into_iter().enumerate() {
        let load = if index % 2 == 0 { STORE } else { LOAD };
        let word = block(bits | load | W, 4, registers);
        cases.push(at_20(&format!("24 at the last address, {name}"), word).r(4, base + 3));
        let near = block(bits | load | W, 4, registers);
        cases.push(
            at_20(&format!("close to 24 at the last address, {name}"), near)
                .r(4, base - 1)
                .count(2),
        );
    }
    let wrap = block(LOAD | UP, 4, list(&[0, 1, 2, 3, 15]));
    cases.push(at_20("24 of a block that wraps to 0", wrap).r(4, 0xFFFF_FFF8));
    let whole = block(LOAD | UP, 4, 0xFFFF);
    cases.push(at_20("24 of a full list, by its R15", whole).r(4, 4));
    cases
}

fn fetched() -> Vec<Case> {
    let mut cases = Vec::new();
    for (to, low) in [
        (0x20, 3),
        (0x24, 0),
        (0x24, 2),
        (0x28, 0),
        (0x28, 3),
        (0x2C, 0),
    ] {
        let word = single(STORE | BEFORE | UP | W, 5, 1, low);
        let topic = format!("store of a word to {:X}, A being 20", to + low);
        cases.push(at_20(&topic, word).r(1, to).count(2));
    }
    for to in [0x23, 0x24, 0x27, 0x28, 0x2B, 0x2C] {
        let word = single(STORE | BYTE | UP, 5, 1, 9);
        let topic = format!("store of a byte to {to:X}, A being 20");
        cases.push(at_20(&topic, word).r(1, to).count(2));
    }
    cases.push(at_20("25 about R15", str(15, 15, 0)));
    cases.push(at_20(
        "25 about R15, below",
        single(STORE | BEFORE | BYTE, 5, 15, 1),
    ));
    for (entry, to, topic) in [
        (0x34, 0x3C, "25 at the last word"),
        (0x38, 0x3C, "25 at the last word, A+4"),
        (0x38, 0x40, "24 at A+8 past the end"),
        (0x3C, 0x40, "24 at A+4 past the end"),
    ] {
        let case = Case::new(topic, &[])
            .at(entry, &[str(5, 1, 0)])
            .entry(entry);
        cases.push(case.r(1, to).count(1));
    }
    cases.push(Case::new("25 at 4 and not at 0", &[str(5, 1, 0), str(5, 1, 8)]).r(1, 0));
    cases
}

/// A at 20: stores that touch A+4 or A+8 first, in the middle and last, and those that don't.
fn fetched_in_blocks() -> Vec<Case> {
    let cases = [
        ("25 at the last address, A+4", 0x1C, 3),
        ("25 at the first address, A+8", 0x28, 3),
        ("25 at the first address, A+4", 0x24, 1),
        ("25 in the middle", 0x10, 8),
        ("a store that ends at A", 0x18, 3),
        ("a store that begins at A+12", 0x2C, 3),
        ("24 before 25", 0x28, 7),
        ("24 before 25, one word", 0x24, 8),
        ("25 up to the last word", 0x24, 7),
    ];
    let mut cases: Vec<Case> = cases
        .into_iter()
        .map(|(topic, from, n)| {
            let word = block(STORE | UP | W, 14, (1 << n) - 1);
            Case::new(topic, &[])
                .at(0x20, &[word])
                .entry(0x20)
                .r(14, from + 1)
                .count(1)
        })
        .collect();
    let down = block(STORE | BEFORE | W, 13, list(&[0, 15]));
    cases.push(at_20("25 downwards, with R15", down).r(13, 0x2C));
    let below = block(STORE | W, 13, 0x7FFF);
    cases.push(at_20("24 below 0 before 25", below).r(13, 0x28));
    cases
}
