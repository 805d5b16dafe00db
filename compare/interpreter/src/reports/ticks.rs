//! A word of each row of the table of ticks, and what comes of it in the report.

use super::case::Case;
use crate::arm::Shift;
use crate::assembler::*;

pub fn cases() -> Vec<Case> {
    let rows = [processing(), transfers(), blocks(), others(), failed()];
    let rows = rows.into_iter().flatten();
    rows.map(|(name, word)| case(name, word)).collect()
}

type Row = (&'static str, u32);

/// Where the data is, and where a stored counter goes: the word behind the row's.
const DATA: u32 = 0x40;
const TARGET: u32 = 0x10;

/// Three words of one cycle, the row's, and a stop. Each of the sixteen words of data is the target.
fn case(name: &str, word: u32) -> Case {
    let code = [
        mov(0, number(TARGET)),
        mov(1, number(DATA)),
        mov(2, number(0x20)),
        word,
        SWI,
    ];
    let mut words = code.to_vec();
    words.resize(DATA as usize / 4, 0);
    words.extend([TARGET; 16]);
    Case::new(format!("22 ticks, {name}"), &words)
}

/// R0, turned right by 32.
fn target_by_register() -> u32 {
    by_register(0, Shift::Ror, 2)
}

fn processing() -> Vec<Row> {
    vec![
        ("MOV", mov(4, plain(1))),
        ("TEQ, Rd 15", ops(TEQ, 15, 1, number(0))),
        ("MOV by register", mov(4, target_by_register())),
        ("CMP by register", ops(CMP, 0, 1, target_by_register())),
        ("MOV to R15", mov(15, plain(0))),
        ("MOVS to R15 by register", movs(15, target_by_register())),
    ]
}

fn transfers() -> Vec<Row> {
    vec![
        ("load", ldr(4, 1, 0)),
        ("load of a byte", single(LOAD | UP | BYTE, 4, 1, 1)),
        ("load of R15", single(LOAD | UP, 15, 1, 4)),
        ("store", str(4, 1, 0)),
        ("store of R15", single(STORE | UP, 15, 1, 4)),
    ]
}

fn blocks() -> Vec<Row> {
    vec![
        ("block load of 1", block(LOAD | UP, 1, list(&[4]))),
        ("block load of 15", block(LOAD | UP | W, 1, 0x7FFF)),
        ("block load of R15", block(LOAD | UP, 1, 1 << 15)),
        ("block load of 16", block(LOAD | UP, 1, 0xFFFF)),
        ("block store of 1", block(STORE | UP, 1, 1 << 15)),
        ("block store of 16", block(STORE | UP, 1, 0xFFFF)),
    ]
}

/// R0 gives an m of 3, R2 of 4, and what the last two write to R2 an m of 7 and of 1.
fn others() -> Vec<Row> {
    vec![
        ("branch", branch(-1)),
        ("branch with link", branch_link(-1)),
        ("MUL", mul(4, 1, 0)),
        ("MLAS", mlas(4, 1, 2, 0)),
        ("MUL to its Rs", mul(2, 1, 2)),
        ("MLA to its Rs", mla(2, 3, 2, 3)),
    ]
}

/// On flags 0.
fn failed() -> Vec<Row> {
    let words = [
        ("MOV to R15 failed", mov(15, target_by_register())),
        ("load failed", ldr(15, 1, 0)),
        ("store failed", str(4, 1, 0)),
        ("block load failed", block(LOAD | UP, 1, 0xFFFF)),
        ("branch failed", branch_link(-2)),
        ("multiply failed", mul(2, 1, 2)),
        ("SWI failed", SWI),
    ];
    words.map(|(name, word)| (name, on(0, word))).to_vec()
}
