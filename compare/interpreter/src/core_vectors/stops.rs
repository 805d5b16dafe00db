//! Boundaries that meet each stop: a settle reaches one or stands on it and finds nothing, the next
//! run with a cycle finds it, and then a settle repeats it.

use super::case::{Case, ENTRY, START};
use crate::arm::Shift;
use crate::assembler::*;

const STOPS: [u32; 5] = [21, 22, 23, 24, 25];

/// A word that meets this stop, R9 being outside the memory; 21 is met behind the last word.
fn meets(stop: u32) -> u32 {
    match stop {
        22 => SWI,
        23 => op(CMP, 0, 0, plain(1)),
        24 => ldr(0, 9, 0),
        _ => str(0, 15, 0),
    }
}

pub fn cases() -> Vec<Case> {
    let ways = [
        ("in a start's refill 1", None, 0),
        ("in a start's refill 2", None, START - 1),
        ("on it", None, START),
        ("on it past a failed one", Some(on(NEVER, SWI)), START + 1),
        (
            "in a shift by register",
            Some(mov(4, by_register(3, Shift::Lsr, 1))),
            START + 1,
        ),
        ("in a load", Some(ldr(4, 1, 0)), START + 2),
        (
            "in a block load",
            Some(block(LOAD | UP | W, 1, 0xF0)),
            START + 3,
        ),
        ("in a multiply", Some(mul(4, 3, 2)), START + 2),
        ("in a branch's refill 1", Some(branch(-1)), START + 1),
        ("in a branch's refill 2", Some(branch(-1)), START + 2),
    ];
    let mut cases = Vec::new();
    for stop in STOPS {
        for (way, first, budget) in ways {
            // A start's first word is inside the memory.
            if stop != 21 || first.is_some() {
                cases.push(case(stop, way, first, budget));
            }
        }
    }
    cases.push(loaded_base());
    cases.push(counter_outside());
    cases
}

fn case(stop: u32, way: &str, first: Option<u32>, budget: u32) -> Case {
    let topic = format!("settle at stop {stop}, {way}");
    let mut code: Vec<u32> = first.into_iter().collect();
    let entry = if stop == 21 {
        0x3C
    } else {
        code.push(meets(stop));
        0x20
    };
    let case = Case::new(topic, &[])
        .at(entry, &code)
        .field(ENTRY, entry)
        .field(1, 0x10)
        .field(2, 0x20)
        .field(9, 0x8000_0000);
    found_later(case.run(budget).settle())
}

fn found_later(case: Case) -> Case {
    case.settle().run(0).run(1).settle().run(3).settle()
}

/// The load under way gives the next word an address outside.
fn loaded_base() -> Case {
    let case = Case::new("settle at stop 24, by a loaded base", &[]);
    let case = case
        .at(0, &[ldr(9, 1, 0x20), ldr(0, 9, 0)])
        .at(0x20, &[64])
        .field(1, 0);
    found_later(case.run(START + 1).settle())
}

/// The refills under way find no word.
fn counter_outside() -> Case {
    let topic = "settle at stop 21, by a counter outside";
    let case = Case::new(topic, &[op(MVN, 15, 0, number(0))]);
    found_later(case.run(START + 1).settle())
}
