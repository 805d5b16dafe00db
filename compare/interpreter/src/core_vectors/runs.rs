//! Runs alone: the record in the middle and at the end of every form, by single cycles and by one
//! budget, and on to the stop.

use super::case::{Case, CYCLES, FLAGS, START};
use super::forms::{form, forms};
use crate::assembler::*;

pub fn cases() -> Vec<Case> {
    let mut cases = Vec::new();
    for form in forms() {
        for done in 1..=form.cycles {
            let topic = format!("run of {done} of {}, {}", form.cycles, form.name);
            let case = form.image().topic(topic);
            // At once or one by one.
            let case = if done % 2 == 0 {
                case.run(START + done)
            } else {
                let singly = |case: Case, _| case.run(1);
                (0..START + done).fold(case, singly)
            };
            cases.push(case);
        }
    }
    cases.extend(to_the_stop());
    cases.extend(refused());
    cases
}

/// Two splits of a budget about the stop, found with a cycle left and repeated.
fn to_the_stop() -> Vec<Case> {
    let names = ["a load of R15", "a block store of R0, R1, R4", "MLAS"];
    let mut cases = Vec::new();
    for form in names.map(form) {
        // After the word there are two of one cycle.
        let total = START + form.cycles + 2;
        let case = |topic: &str| {
            let topic = format!("run to the stop, {topic}, {}", form.name);
            form.image().topic(topic)
        };
        cases.push(case("spent").run(total).run(0));
        cases.push(case("a cycle left").run(total + 1).run(0).run(9));
        cases.push(case("in two").run(total).run(1).run(1));
        cases.push(case("in thirds").run(3).run(3).run(total));
        cases.push(case("far").run(1000).run(900));
    }
    let countdown = [
        mov(0, number(5)),
        ops(SUB, 0, 0, number(1)),
        on(1, branch_to(8, 4)),
        SWI,
    ];
    cases.push(
        Case::new("run of the report's program", &countdown)
            .length(16)
            .run(64),
    );
    cases
}

/// 3, which a settle doesn't have, and its place among the others.
fn refused() -> Vec<Case> {
    let form = form("a block load of R1, R3, R6");
    let case = |topic: &str| form.image().topic(format!("run refused, {topic}")).run(4);
    vec![
        case("3").run(1_000_001).run(u32::MAX).run(1),
        case("12 before 3").run_on(60, 1_000_001).run(1),
        form.after(2)
            .topic("run refused, 11 before 3")
            .field(FLAGS, 16)
            .run(1_000_001)
            .settle(),
        form.after(2)
            .topic("run refused, 3 before 13")
            .count(CYCLES, 1 << 40)
            .run(1_000_001)
            .run(1)
            .run(0),
    ]
}
