//! Settles on memory of another length: 12 in every phase, before all else.

use super::case::{Case, FLAGS, LENGTH, PHASE, START};
use super::forms::form;

pub fn cases() -> Vec<Case> {
    let load = form("a block load of R0, R2, R15");
    let mut cases = Vec::new();
    for done in 0..=load.cycles {
        let topic = format!("settle on another memory, after {done} of {}", load.cycles);
        cases.push(refused(load.image().topic(topic).run(START + done)).settle());
    }
    for done in 0..START {
        let topic = format!("settle on another memory, after {done} of a start's refills");
        cases.push(refused(load.image().topic(topic).run(done)).settle());
    }
    let midway = |topic: &str| load.after(3).topic(format!("settle, {topic}"));
    cases.push(refused(midway("12 before bad flags").field(FLAGS, 16)).settle());
    cases.push(refused(midway("12 before a bad phase").field(PHASE, 7)).settle());
    for length in [0, 12, 60, 66, 68, 65_540] {
        let case = midway(&format!("a core of {length} bytes")).field(LENGTH, length);
        cases.push(case.settle().settle_on(length).run_on(length, 1).run(0));
    }
    let far = midway("a core of far more bytes").field(LENGTH, u32::MAX);
    cases.push(refused(far).settle());
    cases
}

fn refused(case: Case) -> Case {
    case.settle_on(0).settle_on(60).settle_on(68).settle_on(65)
}
