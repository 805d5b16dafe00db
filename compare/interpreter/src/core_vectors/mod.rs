//! Test vectors for the core: cases by topic, their text and the expected lines.

mod bad_sums;
mod blocks;
mod case;
mod forms;
mod held;
mod limits;
mod memories;
mod mixed;
mod multiplies;
mod refills;
mod runs;
mod starts;
mod steps;
mod stops;
mod sums;
mod tampered;

pub use case::{Call, Called, Case, Outcome, BUFFER, RUN, SETTLE};

use crate::pipeline::WORDS;

/// Every case, in the order of the files.
pub fn cases() -> Vec<Case> {
    let topics = [
        runs::cases(),
        steps::cases(),
        blocks::cases(),
        multiplies::cases(),
        starts::cases(),
        stops::cases(),
        held::cases(),
        limits::cases(),
        tampered::cases(),
        memories::cases(),
        mixed::cases(),
        sums::cases(),
        bad_sums::cases(),
        refills::cases(),
    ];
    topics.into_iter().flatten().collect()
}

/// The text of cases, a line each.
pub fn input(cases: &[Case]) -> String {
    cases.iter().map(|case| line(&case.tokens())).collect()
}

/// The expected lines of cases.
pub fn expected(cases: &[Case]) -> String {
    cases.iter().map(|case| line(&case.expected())).collect()
}

fn line(tokens: &[u32]) -> String {
    let tokens: Vec<String> = tokens.iter().map(|token| format!("{token:08X}")).collect();
    tokens.join(" ") + "\n"
}

/// Reads the text of cases.
pub fn read(text: &str) -> Vec<Case> {
    let number = |token| u32::from_str_radix(token, 16).expect("a hexadecimal number");
    let mut tokens = text.split_ascii_whitespace().map(number).peekable();
    let mut next = |count: u32| -> Vec<u32> { tokens.by_ref().take(count as usize).collect() };
    let mut cases = Vec::new();
    while let [mode, length, k, n] = next(4)[..] {
        let core = next(WORDS as u32).try_into().expect("a core's array");
        let words = next(k);
        let call = |it: &[u32]| Call {
            kind: it[0],
            lent: it[1],
            budget: it[2],
        };
        cases.push(Case {
            topic: format!("case {}", cases.len() + 1),
            mode,
            length,
            core,
            words,
            calls: next(3 * n).chunks_exact(3).map(call).collect(),
        });
    }
    cases
}
