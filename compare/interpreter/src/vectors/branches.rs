//! Branches.

use super::case::Case;
use crate::assembler::*;

pub fn cases() -> Vec<Case> {
    let mut cases = Vec::new();
    let mut add = |topic: &str, word: u32| {
        let case = Case::new(format!("branch {topic}"), &[word])
            .at(0x10, &[word])
            .entry(0x10);
        cases.push(case.flags(0x6).count(1));
    };
    add("forward", branch(3));
    add("to A+4", branch(-1));
    add("to A+8", branch(0));
    add("to A", branch(-2));
    add("backward", branch(-5));
    add("to 0", branch(-6));
    add("below 0", branch(-7));
    add("far forward", branch(0x007F_FFFF));
    add("far backward", branch(-0x0080_0000));
    add("with link", branch_link(2));
    add("with link, backward", branch_link(-4));
    add("with link, to itself", branch_link(-2));
    add("with link, skipped", on(1, branch_link(2)));
    add("with link, taken", on(0, branch_link(2)));
    cases.push(round_trip());
    cases.push(from_the_last_word());
    cases.push(countdown());
    cases
}

/// A call and both ways back, without and with the flags of R14.
fn round_trip() -> Case {
    let code = [
        branch_link(4),
        keep_flags(0),
        branch_link(4),
        keep_flags(1),
        branch(8),
        SWI,
        // At 18: spoils the flags and keeps them so.
        ops(CMP, 0, 2, plain(2)),
        mov(15, plain(14)),
        // At 20: spoils the flags and gives them back.
        ops(CMP, 0, 2, plain(3)),
        movs(15, plain(14)),
    ];
    Case::new("calls", &code).flags(0xB).count(9)
}

fn from_the_last_word() -> Case {
    Case::new(
        "branch from the last word",
        &[mov(0, number(1)), mov(1, number(2))],
    )
    .at(0x3C, &[branch_link(-0x11)])
    .entry(0x3C)
    .flags(0x1)
    .count(3)
}

/// The report's program.
fn countdown() -> Case {
    let code = [
        mov(0, number(5)),
        ops(SUB, 0, 0, number(1)),
        on(1, branch_to(8, 4)),
        SWI,
    ];
    Case::new("the report's program", &code)
        .length(16)
        .count(64)
}
