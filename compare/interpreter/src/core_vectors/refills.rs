//! Records in a refill of a word that can store the counter, which are taken, or can't, which are not,
//! by the word alone.

use super::case::{Case, CYCLES, IX, PHASE, START};
use super::forms::form;
use super::tampered::tampered;
use crate::arm::Shift;
use crate::assembler::*;

pub fn cases() -> Vec<Case> {
    let mut cases = words(&never_to_r15());
    cases.extend(words(&forbidden()));
    cases.extend(words(&failing_always()));
    cases.extend(words(&to_r15()));
    cases.extend(cycles_for_the_sums());
    cases.extend(made_up_for());
    cases
}

type Row = (&'static str, u32);

/// Each word in a refill, of which both come by in turn. There are cycles enough for whatever it
/// adds to the sums.
fn words(rows: &[Row]) -> Vec<Case> {
    let case = |(index, &(name, word)): (usize, &Row)| {
        let phase = 1 + index as u32 % 2;
        let what = format!("refill {phase} of {name}");
        in_refill(&what, phase, word).count(CYCLES, 40)
    };
    rows.iter().enumerate().map(case).collect()
}

fn in_refill(what: &str, phase: u32, word: u32) -> Case {
    tampered(&form("to R15"), 1, what, &[(IX, word), (PHASE, phase)])
}

/// Words that don't write R15, near ones that do. `tampered` has more of them.
fn never_to_r15() -> Vec<Row> {
    let shifted = by_register(3, Shift::Lsl, 2);
    vec![
        ("TST, Rd 15", ops(TST, 15, 1, number(3))),
        ("TEQ, Rd 15, by register", ops(TEQ, 15, 1, shifted)),
        ("CMP without S, Rd 15", op(CMP, 15, 1, plain(3))),
        ("ADD, Rn and Rm 15", op(ADD, 14, 15, plain(15))),
        ("a load of R14 by R15", ldr(14, 15, 0)),
        ("a block load of all but R15", block(LOAD | UP, 1, 0x7FFF)),
        ("a block store of all", block(STORE | UP, 1, 0xFFFF)),
        ("a load of R15 shifted by a register", 0xE791_F412),
        ("an Other word with Rd 15", 0xE1A0_F091),
    ]
}

/// They would write R15 but for a rule of 23.
fn forbidden() -> Vec<Row> {
    let load = |bits, rn| single(LOAD | UP | bits, 15, rn, 8);
    vec![
        ("MOV, Rs 15", mov(15, by_register(1, Shift::Lsl, 15))),
        ("a load, base 15, P 0", load(0, 15)),
        ("a load, base 15, W", load(BEFORE | W, 15)),
        (
            "a load, register offset 15",
            single_by(LOAD | BEFORE | UP, 15, 1, plain(15)),
        ),
        ("a load of a byte", load(BEFORE | BYTE, 1)),
        ("a block load, base 15", block(LOAD | UP, 15, 1 << 15)),
        ("a block load, S", block(LOAD | UP | S_BIT, 1, 1 << 15)),
        ("MUL, Rd 15", mul(15, 3, 2)),
    ]
}

fn failing_always() -> Vec<Row> {
    vec![
        ("a branch on never", on(NEVER, branch(-2))),
        ("MOV on never", on(NEVER, mov(15, plain(0)))),
        ("a load on never", on(NEVER, ldr(15, 1, 0))),
        (
            "a block load on never",
            on(NEVER, block(LOAD | UP, 1, 0xFFFF)),
        ),
    ]
}

/// Flags 2 are held: EQ and MI fail. The word may have set them itself.
fn to_r15() -> Vec<Row> {
    let all = block(LOAD | UP | W, 1, 0xFFFF);
    vec![
        (
            "SUBS by register",
            ops(SUB, 15, 15, by_register(1, Shift::Lsr, 14)),
        ),
        ("MOVS on EQ", on(0, movs(15, plain(14)))),
        (
            "ADC by register on MI",
            on(4, op(ADC, 15, 1, by_register(15, Shift::Asr, 0))),
        ),
        ("a load, base 15", ldr(15, 15, 4)),
        (
            "a load on EQ",
            on(0, single_by(LOAD, 15, 1, by_amount(2, Shift::Ror, 0))),
        ),
        ("a block load of all", all),
        ("a block load of all on MI", on(4, all)),
        ("a branch on EQ", on(0, branch(-2))),
        ("a branch with link on EQ", on(0, branch_link(-2))),
    ]
}

/// The start and the load add 22 to the sums: where the cycles come to less the record is taken all
/// the same, and the one that it ends as is not.
fn cycles_for_the_sums() -> Vec<Case> {
    let load = block(LOAD | UP, 1, 0xFFFF);
    let case = |what: &str, phase, cycles| {
        let what = format!("refill {phase} of a block load of all, {what}");
        in_refill(&what, phase, load).count(CYCLES, cycles)
    };
    vec![
        case("just enough cycles", 1, 20),
        case("a cycle too few", 1, 19),
        case("a cycle too few", 2, 20),
    ]
}

/// Where a branch ends with the sums a cycle ahead, a step of the multiply behind it makes up for that,
/// up to the end of the multiply.
fn made_up_for() -> [Case; 2] {
    let case = |what: &str| {
        let topic = format!("settle tampered, a branch with a cycle too few, {what}");
        let code = [branch_to(0, 8), SWI, mul(4, 3, 2)];
        let case = Case::new(topic, &code).field(2, u32::MAX);
        case.after(START + 2).count(CYCLES, 3)
    };
    [
        case("and no more").run(1).run(1).run(0).settle(),
        case("and a step").run(2).run(1).settle().run(0),
    ]
}
