//! Counts about a stop, and what is counted.

use super::case::Case;
use crate::assembler::*;

pub fn cases() -> Vec<Case> {
    let mut cases = Vec::new();
    for count in 0..=5 {
        let code = [
            mov(0, number(1)),
            on(NEVER, SWI),
            ops(ADD, 1, 0, number(2)),
            SWI,
        ];
        cases.push(Case::new(format!("{count} of three and a stop 22"), &code).count(count));
    }
    for count in [0, 1, 2] {
        let case = Case::new(format!("{count} of one and a stop 21"), &[]);
        cases.push(case.at(0x3C, &[mov(0, number(1))]).entry(0x3C).count(count));
    }
    for count in [0, 1] {
        cases.push(
            Case::new(format!("{count} of a stop 23"), &[op(CMP, 0, 0, plain(0))]).count(count),
        );
        cases.push(Case::new(format!("{count} of a stop 24"), &[ldr(0, 1, 0)]).count(count));
        cases.push(Case::new(format!("{count} of a stop 25"), &[str(0, 15, 0)]).count(count));
    }
    for count in [10, 11, 12] {
        let code = [
            mov(0, number(5)),
            ops(SUB, 0, 0, number(1)),
            on(1, branch_to(8, 4)),
            SWI,
        ];
        cases.push(
            Case::new(format!("{count} of the report's program"), &code)
                .length(16)
                .count(count),
        );
    }
    cases
}
