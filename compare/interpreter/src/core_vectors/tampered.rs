//! Records that were changed between calls, in each phase: settled as they stand, by what they hold
//! now, or 11.

use super::case::{
    Case, ADDRESS, BASE, CYCLES, DATA, FLAGS, IR1, IR2, IX, PC, PHASE, RETIRED, STOP,
};
use super::forms::{form, Form};
use crate::arm::Shift;
use crate::assembler::{
    block, branch, by_register, ldr, mov, mul, number, on, str, LOAD, STORE, SWI, S_BIT, UP,
};
use crate::durations::ends;

pub fn cases() -> Vec<Case> {
    let mut cases = phases();
    cases.extend(words());
    cases.extend(multipliers());
    cases.extend(flags());
    cases.extend(latches());
    cases.extend(fetched());
    cases.extend(counters());
    cases.extend(stops());
    cases.extend(numbers());
    cases
}

/// After so many cycles of a form's word some fields are set; then a settle, a step, and a settle.
pub fn tampered(form: &Form, done: u32, what: &str, fields: &[(usize, u32)]) -> Case {
    let topic = format!("settle tampered, {what}, after {done} of {}", form.name);
    let case = form.after(done).topic(topic).fields(fields);
    case.settle().run(1).settle()
}

/// Another phase: a step or refill that the word has, one that it lacks, and numbers that are none.
fn phases() -> Vec<Case> {
    let rows = [
        ("a sum", 0, &[1, 2, 3][..]),
        ("a shift by register", 1, &[0, 1, 2, 4]),
        ("to R15 by register", 1, &[0, 1, 2, 4]),
        ("a load of its base", 1, &[0, 2, 4, 5]),
        ("a load of R15", 2, &[1, 2, 3, 5]),
        ("a store of R15", 1, &[1, 2, 4]),
        ("a block load of R1, R3, R6", 2, &[0, 1, 2, 3, 5, 6, 7]),
        ("a block load of R0, R2, R15", 3, &[0, 1, 3, 4, 6, 7]),
        ("a block store of R1, R3, R15", 1, &[0, 2, 4, 5, 6]),
        ("a branch", 1, &[0, 2, 3]),
        ("MLAS", 2, &[0, 1, 3, 5, 6, 7, 8]),
        ("MLAS", 1, &[20, 0x104, 0x8000_0003, u32::MAX]),
    ];
    let mut cases = Vec::new();
    for (name, done, phases) in rows {
        for &phase in phases {
            let what = format!("phase {phase:X}");
            cases.push(tampered(&form(name), done, &what, &[(PHASE, phase)]));
        }
    }
    cases
}

/// Another word in IX, in a step that it has, lacks or can't have.
fn words() -> Vec<Case> {
    let load = form("a block load of R0, R2, R15");
    let words = [
        ("a longer load", block(LOAD | UP, 1, 0x00FF)),
        ("a longer load of R15", block(LOAD | UP, 1, 0x80F0)),
        ("a shorter load", block(LOAD | UP, 1, 0x0001)),
        ("a store of R15", block(STORE | UP, 1, 0x8003)),
        ("a store that has ended", block(STORE | UP, 1, 0x8000)),
        ("a single load", ldr(4, 1, 0)),
        ("a single load of R15", ldr(15, 1, 0)),
        ("a single store", str(4, 1, 0)),
        ("a multiply", mul(4, 3, 2)),
        ("a multiply that has ended", mul(4, 3, 10)),
        ("a forbidden multiply", mul(3, 3, 2)),
        (
            "a shift by register",
            mov(15, by_register(0, Shift::Lsl, 2)),
        ),
        ("a branch", branch(-2)),
        ("a forbidden load", block(LOAD | UP | S_BIT, 1, 0x8005)),
        ("a load that fails", on(0, block(LOAD | UP, 1, 0x8005))),
        ("SWI", SWI),
    ];
    let mut cases = Vec::new();
    for (what, word) in words {
        // R10 as an Rs is the least; the address is far enough from the end of the memory.
        let fields = [(IX, word), (10, 0), (ADDRESS, 0x18)];
        cases.push(tampered(&load, 2, what, &fields));
    }
    // No word in IX: a refill is then the start's, and accepted.
    for done in [2, 5, 6] {
        let blank = [(IX, 0), (IX + 1, 0)];
        cases.push(tampered(&load, done, "no word", &blank));
    }
    cases.push(tampered(&load, 5, "SWI", &[(IX, SWI)]));
    cases
}

/// Another Rs in the middle of a multiply: the cycles left go by it.
fn multipliers() -> Vec<Case> {
    let mut cases = Vec::new();
    for m in 1..=16 {
        // Rd is R2 too in every fourth.
        let name = if m % 4 == 0 { "MULS to its Rs" } else { "MLAS" };
        let rs = ends(m)[m as usize % 2];
        let what = format!("Rs {rs:X}");
        cases.push(tampered(&form(name), 2, &what, &[(2, rs)]));
    }
    cases
}

/// Other flags, by which a word under way passes or not.
fn flags() -> Vec<Case> {
    let load = form("a block load on NE");
    [0, 4, 15, 16]
        .map(|flags| tampered(&load, 2, &format!("flags {flags:X}"), &[(FLAGS, flags)]))
        .to_vec()
}

/// Words still to be moved elsewhere and outside, other data and bases.
fn latches() -> Vec<Case> {
    let load = form("a block load of R1, R3, R6");
    let store = form("a block store of R0, R1, R4");
    let single = form("a load of its base");
    let mut cases = Vec::new();
    // Words are left to be moved: of the block load two, then one; of the others two and one.
    let rows = [
        (&load, 2, &[0x36, 0x38, 0x3C, 0xFFFF_FFFC][..]),
        (&load, 3, &[0x3C, 0x40]),
        (&store, 2, &[0x2D, 0x3C]),
        (&single, 1, &[0x35, 0x3F, 0x40]),
        // Over the words at A+4 and A+8, which are fetched.
        (&store, 1, &[0x14]),
    ];
    for (form, done, addresses) in rows {
        for &address in addresses {
            let what = format!("address {address:X}");
            cases.push(tampered(form, done, &what, &[(ADDRESS, address)]));
        }
    }
    let other = [(DATA, 9), (BASE, 8)];
    cases.push(tampered(&store, 1, "data and base", &other));
    // No step left needs any.
    let dirty = [(ADDRESS, 0xFFFF_FFFD), (DATA, 9), (BASE, 8)];
    let unneeded = [
        ("a sum", 0),
        ("a shift by register", 1),
        ("to R15", 1),
        ("to R15", 2),
        ("MLAS", 2),
    ];
    for (name, done) in unneeded {
        cases.push(tampered(&form(name), done, "latches", &dirty));
    }
    let others = [dirty[0], dirty[2]];
    cases.push(tampered(&load, 4, "address and base", &others));
    cases
}

/// Other words in the pipe, which are done as they stand.
fn fetched() -> Vec<Case> {
    let load = form("a load of R15");
    let store = form("a store");
    let words = [(IR1, mov(5, number(5))), (IR2, mov(6, number(6)))];
    let blank = [(IR2, 0), (IR2 + 1, 0)];
    vec![
        tampered(&load, 3, "other words fetched", &words),
        tampered(&load, 4, "other words fetched", &words),
        tampered(&store, 1, "other words fetched", &words),
        tampered(&store, 1, "no word fetched", &blank),
    ]
}

fn counters() -> Vec<Case> {
    let load = form("a load of its base");
    let branch = form("a branch");
    let mut cases = Vec::new();
    for pc in [0x3C, 0x03FF_FFFC, 0x0400_0000, 0x1A] {
        let what = format!("counter {pc:X}");
        cases.push(tampered(&load, 1, &what, &[(PC, pc)]));
        cases.push(tampered(&branch, 1, &what, &[(PC, pc)]));
    }
    cases
}

/// Held away from step 1, or none that there is.
fn stops() -> Vec<Case> {
    let rows = [
        ("a block load of R0, R2, R15", 3, 21),
        ("a block load of R0, R2, R15", 3, 26),
        ("a branch", 1, 22),
        ("a branch", 2, 25),
        ("a sum", 0, 1),
        ("a sum", 0, 20),
        ("a sum", 0, 26),
    ];
    let case =
        |(name, done, stop)| tampered(&form(name), done, &format!("stop {stop}"), &[(STOP, stop)]);
    rows.map(case).to_vec()
}

/// More retired than cycles, as many, and cycles past the most.
fn numbers() -> Vec<Case> {
    let load = form("a block load of R1, R3, R6");
    let case = |what: &str| tampered(&load, 3, what, &[]);
    vec![
        case("retired above cycles").count(RETIRED, 6),
        case("retired far above cycles").count(RETIRED, 1 << 32),
        case("retired as cycles").count(RETIRED, 5),
        case("cycles above 2^40").count(CYCLES, (1 << 40) + 1),
        case("cycles far above").count(CYCLES, u64::MAX),
    ]
}
