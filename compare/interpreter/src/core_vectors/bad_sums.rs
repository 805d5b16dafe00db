//! Records whose sums come to the cycles together, which are taken, or pass them, which are not.

use super::case::{Case, CYCLES, STOP, SUM_I, SUM_N, SUM_S};
use super::forms::form;
use super::tampered::tampered;

pub fn cases() -> Vec<Case> {
    let mut cases = about_ten();
    cases.extend(wrapping());
    cases.extend(high_words());
    cases.extend(other_phases());
    cases.extend(other_answers());
    cases
}

/// So many N, S and I.
type Numbers = [u64; 3];

const MOST: u64 = 1 << 40;
const TOP: u64 = 1 << 63;
const THIRD: u64 = u64::MAX / 3;

fn given(case: Case, cycles: u64, [n, s, i]: Numbers) -> Case {
    let case = case.count(CYCLES, cycles);
    case.count(SUM_N, n).count(SUM_S, s).count(SUM_I, i)
}

/// After so many cycles of a form's word.
fn inside(name: &str, done: u32, cycles: u64, sums: Numbers) -> Case {
    let what = format!("sums {sums:X?} of {cycles:X}");
    given(tampered(&form(name), done, &what, &[]), cycles, sums)
}

/// Before a store, which takes two cycles.
fn before_a_store(cycles: u64, sums: Numbers) -> Case {
    inside("a store", 0, cycles, sums)
}

fn about_ten() -> Vec<Case> {
    let sums = [
        [10, 0, 0],
        [0, 0, 10],
        [3, 4, 3],
        [11, 0, 0],
        [0, 11, 0],
        [0, 0, 11],
        [4, 3, 4],
    ];
    sums.map(|sums| before_a_store(10, sums)).to_vec()
}

/// What would be 10 or less, or still a large number, modulo 2^64.
fn wrapping() -> Vec<Case> {
    let sums = [
        [TOP, TOP, 0],
        [0, TOP, TOP],
        [TOP, 5, TOP],
        [u64::MAX, 1, 0],
        [0, u64::MAX, 11],
        [THIRD, THIRD, THIRD + 1],
        [u64::MAX; 3],
    ];
    sums.map(|sums| before_a_store(10, sums)).to_vec()
}

fn high_words() -> Vec<Case> {
    let word = 1 << 32;
    let rows = [
        (10, [word, 0, 0]),
        (10, [0, word, 0]),
        (10, [0, 0, word]),
        (10, [word - 1, 1, 0]),
        (word + 5, [word, 5, 0]),
        (word + 5, [word - 1, 0, 7]),
        (MOST, [MOST / 2, MOST / 4, MOST / 4]),
    ];
    rows.map(|(cycles, sums)| before_a_store(cycles, sums))
        .to_vec()
}

/// Where an instruction or a start under way is in the sums already, as it were: they pass the cycles
/// as soon as it ends.
fn other_phases() -> Vec<Case> {
    let load = "a block load of R1, R3, R6";
    let start = |done, cycles, sums| {
        let topic = format!("settle tampered, sums {sums:X?} after {done} of a start's refills");
        let case = form("a sum").image().after(done).topic(topic);
        given(case, cycles, sums).settle().run(1).settle()
    };
    vec![
        inside(load, 2, 4, [1, 2, 1]),
        inside(load, 4, 7, [1, 2, 1]),
        inside("a branch", 1, 3, [1, 2, 0]),
        inside("MLAS", 1, 3, [0, 0, 4]),
        start(0, 0, [1, 0, 0]),
        start(1, 1, [0, 1, 0]),
    ]
}

/// Their place among the other refusals, and before a stop held.
fn other_answers() -> [Case; 2] {
    let case = |what: &str, cycles| {
        let topic = format!("settle tampered, sums above cycles, {what}");
        given(form("a sum").after(0), cycles, [cycles, 0, 1]).topic(topic)
    };
    let held = case("11 behind 12 and before a stop held", 2).field(STOP, 22);
    let at_the_end = case("11 before 3 and 13", MOST);
    [
        held.settle_on(60).run_on(60, 1).settle().run(0),
        at_the_end.run(1_000_001).run(1).settle(),
    ]
}
