//! What was compared of Intel HEX, for the last lines.

use crate::counts::{Hex, HexReads};
use crate::figures::grouped;

/// What the reader's answers mean.
const ANSWERS: [(u32, &str); 5] = [
    (0, "read, the memory as the records say"),
    (1, "refused: bad length of the memory"),
    (
        41,
        "refused: a line that is no sound record of types 00, 01, 04",
    ),
    (42, "refused: data beyond the memory"),
    (43, "refused: no end record"),
];

pub fn show(hex: &Hex) -> String {
    if hex.memories > 0 {
        format!("{}\n{}", texts(hex), lines(hex))
    } else {
        texts(hex)
    }
}

fn texts(hex: &Hex) -> String {
    let mut text = format!(
        "After every call for Intel HEX: the answer, the memory, the text and what was written of a line.\n\
         Texts read, among them those that the product had written:\n\
         {:>6}{:>14}{:>14}{:>14}  {}",
        "answer", "directed", "random", "written", "meaning"
    );
    let kinds = [&hex.directed, &hex.random, &hex.written];
    for (number, meaning) in ANSWERS {
        let count = |reads: &HexReads| reads.answers.get(&number).copied().unwrap_or(0);
        let [directed, random, written] = kinds.map(|reads| grouped(count(reads)));
        text += &format!("\n{number:>6}{directed:>14}{random:>14}{written:>14}  {meaning}");
    }
    text
}

fn lines(hex: &Hex) -> String {
    let rows = [
        (hex.memories, "memories whose lines were asked for"),
        (hex.lines, "lines written"),
        (
            hex.no_lines,
            "calls for a line past the end record, which wrote nothing",
        ),
        (
            hex.refused,
            "calls for a line refused: bad length of the memory",
        ),
    ];
    let rows = rows.map(|(count, what)| format!("{:>20}  {what}", grouped(count)));
    rows.join("\n")
}
