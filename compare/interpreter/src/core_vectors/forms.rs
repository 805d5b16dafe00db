//! A word of every form that takes its own number of steps, and an image that does it first.

use super::case::{Case, ENTRY, FLAGS, START};
use crate::arm::Shift;
use crate::assembler::*;

/// A word and the cycles that it takes in its image, refills included.
#[derive(Clone, Copy)]
pub struct Form {
    pub name: &'static str,
    pub word: u32,
    pub cycles: u32,
}

/// Where the word stands, where a stored counter goes, where four words of data are.
const AT: u32 = 0x10;
const TARGET: u32 = 0x20;
const DATA: u32 = 0x30;

/// Every form. The comments say which ones a hasty rule takes for storing the counter, or not.
pub fn forms() -> Vec<Form> {
    let classes = [
        processing(),
        singles(),
        blocks(),
        branches(),
        multiplies(),
        failed(),
    ];
    let form = |(name, word, cycles)| Form { name, word, cycles };
    classes.into_iter().flatten().map(form).collect()
}

type Row = (&'static str, u32, u32);

/// The operand R0, turned right by R2, which leaves it as it is.
fn target_by_register() -> u32 {
    by_register(0, Shift::Ror, 2)
}

fn processing() -> Vec<Row> {
    let shifted = by_register(3, Shift::Ror, 4);
    vec![
        ("a sum", ops(ADD, 4, 1, number(3)), 1),
        ("a shift by amount", movs(4, by_amount(3, Shift::Ror, 0)), 1),
        ("a shift by register", ops(ADC, 4, 15, shifted), 2),
        ("a compare by register", ops(CMP, 0, 3, shifted), 2),
        ("to R15", mov(15, plain(0)), 3),
        ("to R15 with S", ops(ADD, 15, 0, number(4)), 3),
        ("to R15 by register", mov(15, target_by_register()), 4),
        (
            "to R15 by register with S",
            ops(ORR, 15, 0, target_by_register()),
            4,
        ),
        // These leave the counter.
        ("TEQ to R15", ops(TEQ, 15, 3, number(0)), 1),
        ("CMN to R15 by register", ops(CMN, 15, 3, shifted), 2),
    ]
}

fn singles() -> Vec<Row> {
    vec![
        (
            "a load, base before",
            single(LOAD | BEFORE | UP | W, 4, 1, 6),
            3,
        ),
        ("a load of its base", single(LOAD | UP, 1, 1, 8), 3),
        (
            "a load of a byte",
            single_by(LOAD | BEFORE | UP | BYTE, 4, 1, by_amount(2, Shift::Lsr, 2)),
            3,
        ),
        ("a load of R15", single(LOAD | BEFORE | UP | W, 15, 1, 8), 5),
        ("a store", single(STORE | UP, 3, 1, 4), 2),
        (
            "a store of a byte",
            single(STORE | BEFORE | UP | W | BYTE, 3, 1, 7),
            2,
        ),
        ("a store of its base", single(STORE | UP | W, 1, 1, 12), 2),
        // This leaves the counter.
        ("a store of R15", str(15, 1, 12), 2),
    ]
}

fn blocks() -> Vec<Row> {
    vec![
        ("a block load of R4", block(LOAD | UP, 1, list(&[4])), 3),
        (
            "a block load of R1, R3, R6",
            block(LOAD | UP | W, 1, list(&[1, 3, 6])),
            5,
        ),
        ("a block load of R15", block(LOAD | UP | W, 1, 1 << 15), 5),
        (
            "a block load of R0, R2, R15",
            block(LOAD | UP | BEFORE, 1, list(&[0, 2, 15])),
            7,
        ),
        ("a block store of R4", block(STORE | UP, 1, list(&[4])), 2),
        (
            "a block store of R0, R1, R4",
            block(STORE | UP | W, 1, list(&[0, 1, 4])),
            4,
        ),
        // These leave the counter.
        ("a block store of R15", block(STORE | UP, 1, 1 << 15), 2),
        (
            "a block store of R1, R3, R15",
            block(STORE | UP | BEFORE | W, 1, list(&[1, 3, 15])),
            4,
        ),
    ]
}

fn branches() -> Vec<Row> {
    vec![
        ("a branch", branch_to(AT, TARGET), 3),
        ("a branch with link", branch_to(AT, TARGET) | 1 << 24, 3),
        // To A+4: a refill all the same.
        ("a branch to the next", branch(-1), 3),
    ]
}

/// R2 gives an m of 4.
fn multiplies() -> Vec<Row> {
    vec![
        ("MUL", mul(4, 3, 2), 5),
        ("MLAS", mlas(4, 3, 2, 0), 5),
        // Rs is written in the last step, by which m was another one.
        ("MULS to its Rs", muls(2, 3, 2), 5),
    ]
}

/// Under flags 2: NE passes, EQ does not.
fn failed() -> Vec<Row> {
    vec![
        (
            "a failed shift to R15",
            on(0, mov(15, target_by_register())),
            1,
        ),
        ("a failed load", on(0, ldr(15, 1, 0)), 1),
        ("a failed block load", on(0, block(LOAD | UP, 1, 0xFFFF)), 1),
        ("a failed branch", on(NEVER, branch(-2)), 1),
        ("a failed multiply", on(0, mul(4, 3, 2)), 1),
        ("a failed SWI", on(NEVER, SWI), 1),
        ("a block load on NE", on(1, block(LOAD | UP, 1, 0x30)), 4),
    ]
}

/// A form by its name.
pub fn form(name: &str) -> Form {
    let found = forms().into_iter().find(|form| form.name == name);
    found.expect("a form of this name")
}

impl Form {
    /// A start of the word. After it, and where a stored counter goes, come words of one cycle and
    /// a stop; each word of data sends the counter there too.
    pub fn image(&self) -> Case {
        let next = [
            self.word,
            mov(7, number(7)),
            keep_flags(8),
            SWI,
            ops(ADC, 9, 9, number(1)),
            keep_flags(8),
            SWI,
        ];
        Case::new(self.name, &[])
            .at(AT, &next)
            .at(DATA, &addresses(TARGET, 4))
            .field(ENTRY, AT)
            .field(FLAGS, 2)
            .field(0, 0xA000_0023)
            .field(1, DATA)
            .field(2, 0x20)
            .field(3, 0x8000_0001)
    }

    /// The core after so many cycles of the word, as a case of mode 1.
    pub fn after(&self, cycles: u32) -> Case {
        self.image().after(START + cycles)
    }
}

/// Words that are all different and each an R15 word of one address, bits 27, 26, 1 and 0 apart.
pub fn addresses(target: u32, words: u32) -> Vec<u32> {
    let word = |index: u32| {
        let byte = ((index + 1) * 157) & 0xFF;
        byte >> 2 << 26 | target | byte & 3
    };
    (0..words).map(word).collect()
}
