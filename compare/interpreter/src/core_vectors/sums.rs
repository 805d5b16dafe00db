//! What a retirement adds to the sums, no sooner and no later. `runs` ends its budgets a cycle before
//! each form's retirement and at it, `steps` its settles; here they go a cycle further.

use super::case::{Case, START};
use super::forms::form;
use crate::assembler::*;

pub fn cases() -> Vec<Case> {
    let mut cases = behind();
    cases.extend(own_rs());
    cases.extend(starts());
    cases.push(failed());
    cases
}

/// A form for each row of the table but those of one cycle, with and without a stored counter.
const ROWS: [&str; 11] = [
    "a shift by register",
    "to R15",
    "to R15 by register",
    "a load, base before",
    "a load of R15",
    "a store of R15",
    "a block load of R1, R3, R6",
    "a block load of R0, R2, R15",
    "a block store of R1, R3, R15",
    "a branch",
    "MLAS",
];

fn behind() -> Vec<Case> {
    let case = |name| {
        let form = form(name);
        let case = form.image().topic(format!("sums a cycle behind, {name}"));
        case.run(START + form.cycles - 1).settle().run(1)
    };
    ROWS.map(case).to_vec()
}

/// Multiplies to their Rs: its old value counts, and in the same word again the one written.
fn own_rs() -> Vec<Case> {
    // The registers R2, R3 and R4, the first's m and the second's.
    let rows = [
        ("MUL", mul(2, 3, 2), [1, u32::MAX, 0], 1, 16),
        ("MULS", muls(2, 3, 2), [1 << 29, 8, 0], 16, 1),
        ("MLA", mla(2, 3, 2, 2), [7, 0xFFFF_FFF9, 0], 2, 16),
        ("MLAS", mlas(2, 3, 2, 4), [1 << 27, 32, 5], 15, 2),
    ];
    let mut cases = Vec::new();
    for (index, (name, word, [rs, rm, rn], m, next_m)) in rows.into_iter().enumerate() {
        let case = |topic: &str| {
            let topic = format!("sums of {name} to its Rs, m {m} and then {next_m}, {topic}");
            let case = Case::new(topic, &[word, word, SWI]);
            case.field(2, rs).field(3, rm).field(4, rn)
        };
        let first = START + 1 + m;
        cases.push(if index % 2 == 0 {
            case("at the end").run(first)
        } else {
            case("settled").run(first - 1).settle()
        });
        cases.push(case("in the second").run(first + next_m));
        cases.push(case("to the stop").run(first + 1).settle().run(1));
    }
    cases
}

/// A cycle before the end of a start's refills and one behind it, in a load that hasn't retired.
fn starts() -> [Case; 2] {
    [START - 1, START + 1].map(|cycles| {
        let topic = format!("sums after {cycles} from a start");
        Case::new(topic, &[ldr(4, 1, 0)]).field(1, 8).run(cycles)
    })
}

/// Words of each class on conditions that fail, none of which adds more than another.
fn failed() -> Case {
    let words = [
        on(0, mov(4, number(1))),
        on(0, mov(15, plain(1))),
        on(NEVER, op(CMP, 0, 0, plain(1))),
        on(0, ldr(15, 1, 0)),
        on(NEVER, str(4, 1, 0)),
        on(0, block(LOAD | UP, 1, 0xFFFF)),
        on(0, block(STORE | UP, 1, 0xFFFF)),
        on(0, branch_link(-2)),
        on(NEVER, mlas(4, 3, 2, 0)),
        on(0, mul(15, 15, 15)),
        on(NEVER, SWP),
    ];
    let topic = "sums of failed conditions of each class";
    Case::new(topic, &words).run(START + words.len() as u32)
}
