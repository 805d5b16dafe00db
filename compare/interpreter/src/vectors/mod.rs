//! Test vectors for the plain machine: cases by topic, their text and the expected lines.

mod blocks;
mod branches;
mod case;
mod conditions;
mod constants;
mod counts;
mod multiplies;
mod processing;
mod r15;
mod refusals;
mod shifts;
mod singles;
mod stops;
mod walks;
mod whole_programs;

pub use case::{Case, BUFFER};

/// Every case, in the order of the files.
pub fn cases() -> Vec<Case> {
    let topics = [
        processing::cases(),
        shifts::cases(),
        constants::cases(),
        r15::cases(),
        conditions::cases(),
        singles::cases(),
        blocks::cases(),
        branches::cases(),
        multiplies::cases(),
        stops::cases(),
        walks::cases(),
        refusals::cases(),
        counts::cases(),
        whole_programs::cases(),
    ];
    topics.into_iter().flatten().collect()
}

/// The text of cases, a line each.
pub fn input(cases: &[Case]) -> String {
    cases.iter().map(|case| line(&case.tokens())).collect()
}

/// The expected lines of cases.
pub fn expected(cases: &[Case]) -> String {
    cases.iter().map(|case| line(&case.expected())).collect()
}

fn line(tokens: &[u32]) -> String {
    let tokens: Vec<String> = tokens.iter().map(|token| format!("{token:08X}")).collect();
    tokens.join(" ") + "\n"
}

/// Reads the text of cases.
pub fn read(text: &str) -> Vec<Case> {
    let number = |token| u32::from_str_radix(token, 16).expect("a hexadecimal number");
    let mut tokens = text.split_ascii_whitespace().map(number).peekable();
    let mut cases = Vec::new();
    while tokens.peek().is_some() {
        let head: Vec<u32> = tokens.by_ref().take(8 + 15).collect();
        let [mode, length, lent, entry, flags, stop, count, k] = head[..8].try_into().unwrap();
        cases.push(Case {
            topic: format!("case {}", cases.len() + 1),
            mode,
            length,
            lent,
            entry,
            flags,
            stop,
            count,
            r: head[8..].try_into().expect("fifteen registers"),
            words: tokens.by_ref().take(k as usize).collect(),
        });
    }
    cases
}
