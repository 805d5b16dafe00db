//! Cycles so near 2^40 that the rest under way would just end there, or one too far.

use super::case::{Case, CYCLES, FLAGS, START};
use super::forms::{addresses, form, Form};
use crate::assembler::*;

const MOST: u64 = 1 << 40;

pub fn cases() -> Vec<Case> {
    let mut cases = Vec::new();
    for (name, case, left) in rests() {
        let near = |sum: u64, topic: &str| {
            let topic = format!("settle with {left} to go, {topic} 2^40, {name}");
            let case = case.clone().topic(topic);
            case.count(CYCLES, sum - u64::from(left))
        };
        cases.push(near(MOST, "just to").settle().settle().run(0).run(1));
        let past = near(MOST + 1, "just past").settle().run(left);
        cases.push(past.run(0).run(1).settle());
    }
    for (name, case, left) in rests().into_iter().step_by(6) {
        let topic = format!("settle with {left} to go, just short of 2^40, {name}");
        let case = case.topic(topic).count(CYCLES, MOST - 1 - u64::from(left));
        cases.push(case.settle().settle().run(1).settle());
    }
    let load = |topic: &str| {
        let case = form("a load of R15").after(1);
        case.topic(topic).count(CYCLES, MOST)
    };
    let at_the_end = load("settle at 2^40 cycles, 13 every time");
    cases.push(at_the_end.settle().run(0).settle());
    let bad = load("settle at 2^40 cycles, 11 before 13");
    cases.push(bad.field(FLAGS, 16).settle().run(1));
    let other = load("settle at 2^40 cycles, 12 before 13");
    cases.push(other.settle_on(60).settle());
    cases
}

/// Every kind of rest: what it is, a core of it, and the cycles left.
fn rests() -> Vec<(String, Case, u32)> {
    let mut rests = Vec::new();
    let sum = form("a sum");
    for done in 0..=START {
        let name = format!("{done} of a start's refills");
        rests.push((name, sum.image().after(done), START - done));
    }
    let words = [
        ("a shift by register", &[1][..]),
        ("to R15", &[1, 2]),
        ("to R15 by register", &[1, 3]),
        ("a load of its base", &[1, 2]),
        ("a load of R15", &[1, 2, 3]),
        ("a store", &[1]),
        ("a block load of R1, R3, R6", &[2]),
        ("a block load of R0, R2, R15", &[1, 4, 5, 6]),
        ("a block store of R1, R3, R15", &[1, 3]),
        ("a branch with link", &[1, 2]),
        ("MLAS", &[1, 3]),
    ];
    for (name, steps) in words {
        let form = form(name);
        for &done in steps {
            rests.push(rest(&form, form.image(), form.cycles, done));
        }
    }
    let mlas = form("MLAS");
    for done in [1, 16] {
        rests.push(rest(&mlas, mlas.image().field(2, u32::MAX), 17, done));
    }
    for done in [1, 17] {
        rests.push(rest(&full_load(), full_image(), 20, done));
    }
    rests
}

fn rest(form: &Form, image: Case, cycles: u32, done: u32) -> (String, Case, u32) {
    let name = format!("after {done} of {cycles}, {}", form.name);
    (name, image.after(START + done), cycles - done)
}

fn full_load() -> Form {
    Form {
        name: "a block load of all",
        word: block(LOAD | UP, 1, 0xFFFF),
        cycles: 20,
    }
}

fn full_image() -> Case {
    Case::new("", &[full_load().word])
        .at(0x20, &addresses(0, 16))
        .field(1, 0x20)
}
