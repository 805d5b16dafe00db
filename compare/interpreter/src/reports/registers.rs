//! What the report's lines show: conditions, flags, registers and the counter.

use super::case::Case;
use crate::assembler::*;

pub fn cases() -> Vec<Case> {
    let mut cases: Vec<Case> = FLAGS.map(conditions).to_vec();
    cases.extend(registers());
    cases
}

/// With values of one digit from A to F among them.
const FLAGS: [u32; 10] = [0, 3, 5, 8, 10, 11, 12, 13, 14, 15];

/// Sets the flags, then a word on each condition: those that pass count in their register.
fn conditions(flags: u32) -> Case {
    let mut code = vec![ops(TEQ, 15, 0, rotated(2, flags))];
    code.extend((0..15).map(|condition| on(condition, mov(condition, number(0xA0 + condition)))));
    code.push(on(NEVER, mov(14, number(1))));
    code.push(SWI);
    Case::new(format!("22 conditions on flags {flags:X}"), &code).length(0x60)
}

fn registers() -> Vec<Case> {
    let each: Vec<u32> = (0..15)
        .map(|name| mov(name, rotated(name, 0xF1 - name)))
        .collect();
    let marked = [
        ops(SUB, 0, 0, number(0)),
        mov(1, number(0x40)),
        str(15, 1, 0),
        ldr(2, 1, 0),
        branch_link(0),
        0,
        ops(SUB, 3, 0, number(1)),
        ops(MVN, 15, 0, number(0x2B)),
        0,
        0,
        SWI,
    ];
    vec![
        Case::new("22 upper case", &[op(MVN, 5, 0, number(5)), SWI]),
        Case::new("21 every register", &each).length(60),
        Case::new("21 R15 stored, link, flags from a result", &marked).length(0x60),
    ]
}
