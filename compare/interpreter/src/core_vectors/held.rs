//! Stops that a record holds: a settle answers them with no cycles, also where not one more is left.

use super::case::{Case, ADDRESS, BASE, CYCLES, DATA, IX, RETIRED, STOP};
use super::forms::form;

const MOST: u64 = 1 << 40;

pub fn cases() -> Vec<Case> {
    let mut cases = Vec::new();
    for stop in 21..=25 {
        let case = held(stop, "settled twice");
        cases.push(case.settle().settle().run(0).run(5));
        let case = held(stop, "at 2^40 cycles").count(CYCLES, MOST);
        cases.push(case.settle().run(0).run(1).settle());
    }
    let blank = held(21, "with no word").field(IX, 0).field(IX + 1, 0);
    cases.push(blank.settle().run(1).settle());
    let latches = held(24, "with latches").fields(&[(ADDRESS, 3), (DATA, 5), (BASE, 7)]);
    cases.push(latches.settle().run(1).settle());
    let retired = held(22, "with as many retired").count(RETIRED, 2);
    cases.push(retired.settle());
    let other = held(23, "with another memory");
    cases.push(other.settle_on(60).settle_on(68).settle());
    cases
}

/// On the boundary of a word that meets none.
fn held(stop: u32, topic: &str) -> Case {
    let topic = format!("settle with stop {stop} held, {topic}");
    form("a sum").after(0).topic(topic).field(STOP, stop)
}
