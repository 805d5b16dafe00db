//! What is printed where the two differ.

use crate::figures::grouped;
use interpreter::programs::Program;
use std::fmt;

pub struct Outcome {
    pub answer: u32,
    pub used: u64,
    pub record: Vec<u32>,
}

/// A call after which the two machines differ.
pub struct CallDifference {
    pub kind: &'static str,
    pub names: &'static [&'static str],
    pub call: String,
    pub before: Vec<u32>,
    pub product: Outcome,
    pub expected: Outcome,
    /// The first byte that differs: address, the product's, the interpreter's.
    pub byte: Option<(usize, u8, u8)>,
    /// Not on a boundary from a start where the product's sums are not its cycles.
    pub sums_hold: bool,
}

impl fmt::Display for CallDifference {
    fn fmt(&self, out: &mut fmt::Formatter) -> fmt::Result {
        writeln!(out, "{}: {}", self.kind, self.call)?;
        writeln!(
            out,
            "answer: product {}, interpreter {}; used: product {}, interpreter {}",
            self.product.answer, self.expected.answer, self.product.used, self.expected.used
        )?;
        if !self.sums_hold {
            writeln!(
                out,
                "a boundary: the product's sums don't come to its cycles"
            )?;
        }
        writeln!(
            out,
            "{:<14}{:>10}{:>10}{:>13}",
            "field", "before", "product", "interpreter"
        )?;
        for (index, name) in self.names.iter().enumerate() {
            let (product, expected) = (self.product.record[index], self.expected.record[index]);
            let mark = if product == expected { "" } else { "  differs" };
            writeln!(
                out,
                "{name:<14}{:>10X}{product:>10X}{expected:>13X}{mark}",
                self.before[index]
            )?;
        }
        match self.byte {
            Some((at, product, expected)) => writeln!(
                out,
                "memory at {at:X}: product {product:02X}, interpreter {expected:02X}"
            ),
            None => writeln!(out, "memory: the same"),
        }
    }
}

/// An image as it was started, zeros at its end left out.
pub fn show(program: &Program) -> String {
    let used = program
        .words
        .iter()
        .rposition(|&word| word != 0)
        .map_or(0, |last| last + 1);
    let list = |words: &[u32]| {
        let words: Vec<String> = words.iter().map(|word| format!("{word:08X}")).collect();
        words.join(" ")
    };
    format!(
        "entry {:X}, flags {:X}, registers {}\nimage of {} words: {}",
        program.entry,
        program.flags,
        list(&program.r),
        program.words.len(),
        list(&program.words[..used])
    )
}

// How many bytes of a text are printed, if it has more.
const FIRST: usize = 1600;
const LAST: usize = 400;

/// The bytes of a text, a line of it a row; of a long one the first and the last.
pub fn readable(text: &[u8]) -> String {
    match text.len().checked_sub(FIRST + LAST) {
        None | Some(0) => rows(text),
        Some(between) => {
            let (first, last) = (&text[..FIRST], &text[FIRST + between..]);
            let between = grouped(between as u64);
            format!("{}    ... {between} bytes ...\n{}", rows(first), rows(last))
        }
    }
}

fn rows(text: &[u8]) -> String {
    text.split_inclusive(|&byte| byte == b'\n')
        .map(row)
        .collect()
}

pub fn row(line: &[u8]) -> String {
    format!("    {}\n", line.escape_ascii())
}
