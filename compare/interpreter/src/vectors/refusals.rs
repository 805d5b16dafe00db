//! What start and run refuse, in their order, and stops that a record holds.

use super::case::Case;
use crate::assembler::*;

const MILLION: u32 = 1_000_000;

/// A program that would change memory, flags and registers.
fn busy(topic: impl Into<String>) -> Case {
    let code = [
        str(0, 15, 0x18),
        movs(1, number(0)),
        mov(2, number(2)),
        branch(-3),
    ];
    Case::new(topic, &code).count(3).flags(0x9)
}

fn no_words(topic: impl Into<String>, length: u32) -> Case {
    Case::new(topic, &[]).length(length).count(3).flags(0x9)
}

pub fn cases() -> Vec<Case> {
    let mut cases = starts();
    cases.extend(other_memory());
    cases.extend(bad_records());
    cases.extend(budgets());
    cases.extend(held());
    cases
}

fn starts() -> Vec<Case> {
    let mut cases = Vec::new();
    for length in [0, 4, 12, 15] {
        cases.push(no_words(format!("1 for length {length}"), length));
    }
    for length in [17, 18, 67] {
        cases.push(busy(format!("1 for length {length}")).length(length));
    }
    for length in [65_535, 65_538, 65_540, 65_544] {
        cases.push(busy(format!("1 for length {length}")).length(length));
    }
    for length in [16, 20, 65_532, 65_536] {
        cases.push(
            busy(format!("a start with length {length}"))
                .length(length)
                .count(1),
        );
    }
    cases.push(busy("1 before 2 and 4").length(70).entry(2).flags(16));
    cases.push(busy("1, then 11 for an empty memory").length(70).lent(0));
    cases.push(
        busy("1, then 11 with a count too large")
            .length(70)
            .lent(0)
            .count(MILLION + 1),
    );
    for entry in [1, 2, 0x3F, 0x40, 0x44, 0x0400_0000, 0xFFFF_FFFC] {
        cases.push(busy(format!("2 for entry {entry:X}")).entry(entry));
    }
    cases.push(busy("2 before 4").entry(0x40).flags(16));
    cases.push(busy("2, then 11 for an empty memory").entry(5).lent(0));
    cases.push(busy("a start at the last word").entry(0x3C).count(1));
    cases.push(
        busy("2 at the end of the longest memory")
            .length(65_536)
            .entry(65_536),
    );
    cases.push(
        busy("a start at the end of the longest memory")
            .length(65_536)
            .entry(65_532),
    );
    for flags in [16, 0x19, 0x8000_0000, 0xFFFF_FFFF] {
        cases.push(busy(format!("4 for flags {flags:X}")).flags(flags));
    }
    cases.push(busy("4, then 11 for an empty memory").flags(16).lent(0));
    cases.push(busy("a start with flags F").flags(15));
    cases
}

fn other_memory() -> Vec<Case> {
    vec![
        busy("12 for a shorter memory").lent(60),
        busy("12 for a longer memory").lent(68),
        busy("12 for a memory a byte longer").lent(65),
        busy("12 for an empty memory").lent(0),
        busy("12 for the whole buffer").lent(65_544),
        busy("12 before 3").lent(60).count(MILLION + 1),
        busy("12 with nothing to do").lent(60).count(0),
        busy("12 for a record").record(0).lent(60),
        busy("12 for a record, longer").record(0).lent(128),
        busy("12 before 11").record(7).flags(16).entry(1).lent(60),
        busy("12 before a bad length").record(0).length(70).lent(68),
        busy("12 before a held stop").record(24).lent(60),
        no_words("12 for a record of no length", 0)
            .record(0)
            .lent(16),
    ]
}

fn bad_records() -> Vec<Case> {
    let mut cases = Vec::new();
    for length in [0, 4, 12] {
        cases.push(no_words(format!("11 for length {length}"), length).record(0));
    }
    for length in [18, 65, 65_537, 65_540, 65_544] {
        cases.push(
            busy(format!("11 for length {length}"))
                .length(length)
                .record(0),
        );
    }
    for a in [1, 2, 7, 0x0400_0000, 0xFFFF_FFFC] {
        cases.push(busy(format!("11 for A {a:X}")).entry(a).record(0));
    }
    for flags in [16, 0xFFFF_FFFF] {
        cases.push(
            busy(format!("11 for flags {flags:X}"))
                .flags(flags)
                .record(0),
        );
    }
    for stop in [1, 11, 20, 26, 0xFFFF_FFFF] {
        cases.push(busy(format!("11 for stop {stop}")).record(stop));
    }
    cases.push(busy("11 before 3").flags(16).record(0).count(MILLION + 1));
    cases.push(busy("11 with nothing to do").flags(16).record(0).count(0));
    cases.push(busy("11 before a held stop").flags(16).record(22));
    cases.push(busy("a record that runs").record(0));
    cases.push(
        busy("a record that runs at 8")
            .record(0)
            .entry(8)
            .flags(15)
            .count(4),
    );
    cases
}

fn budgets() -> Vec<Case> {
    vec![
        busy("3 for a count of 1000001").count(MILLION + 1),
        busy("3 for the largest count").count(0xFFFF_FFFF),
        busy("3 for a record").record(0).count(MILLION + 1),
        busy("3 before a held stop").record(23).count(MILLION + 1),
        Case::new("a count of 1000000 that stops", &[mov(0, number(1)), SWI]).count(MILLION),
        Case::new(
            "a count of 1000000 that is spent",
            &[ops(ADD, 0, 0, number(1)), branch(-3)],
        )
        .r(0, 0)
        .count(MILLION),
    ]
}

fn held() -> Vec<Case> {
    let mut cases = Vec::new();
    for stop in 21..=25 {
        for count in [0, stop - 20] {
            cases.push(
                busy(format!("held stop {stop}, count {count}"))
                    .record(stop)
                    .count(count),
            );
        }
    }
    cases.push(busy("held stop, count 1000000").record(25).count(MILLION));
    cases.push(busy("held stop, A outside").record(22).entry(0x03FF_FFFC));
    cases
}
