//! Settles in a start's refill, which end at the first boundary and retire nothing, and after starts
//! that were refused.

use super::case::{Case, ENTRY, FLAGS};
use super::forms::form;
use crate::assembler::*;

pub fn cases() -> Vec<Case> {
    let mut cases = Vec::new();
    let words = [
        ("a sum", form("a sum").word),
        ("a block load", form("a block load of R1, R3, R6").word),
        ("a branch", branch(-2)),
        ("a failed condition", on(NEVER, SWI)),
    ];
    for (name, word) in words {
        let case = |topic: &str| {
            let topic = format!("settle in a start's refill, {topic}, {name}");
            Case::new(topic, &[word, mov(0, number(1))]).field(1, 0x20)
        };
        cases.push(case("at once").settle().settle());
        cases.push(case("after 0").run(0).settle().run(1));
        cases.push(case("after 1").run(1).settle().settle().run(2).settle());
    }
    cases.push(at_the_end("after 0").settle().settle().run(1).settle());
    cases.push(at_the_end("after 1").run(1).settle().run(2).settle());
    cases.extend(refused());
    cases
}

/// The last word, behind which the refill finds none.
fn at_the_end(topic: &str) -> Case {
    Case::new(
        format!("settle in a start's refill, {topic}, at the end"),
        &[],
    )
    .at(0x3C, &[mov(0, number(1))])
    .field(ENTRY, 0x3C)
}

/// Nothing is left to be settled: 11, and 12 for every memory of another length than 0.
fn refused() -> Vec<Case> {
    let case = |topic: &str| {
        let topic = format!("settle after a refused start, {topic}");
        Case::new(topic, &[mov(0, number(1))]).field(FLAGS, 5)
    };
    let calls = |case: Case| case.settle().settle_on(0).run_on(0, 1).settle_on(16);
    vec![
        calls(case("length 70").length(70)),
        calls(case("length 65544").length(65_544)),
        calls(case("entry 2").field(ENTRY, 2)),
        calls(case("entry 64").field(ENTRY, 64)),
        calls(case("flags 16").field(FLAGS, 16)),
    ]
}
