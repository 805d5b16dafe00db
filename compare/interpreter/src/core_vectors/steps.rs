//! A settle after a budget that ends before each step and each refill of every form, and another one.

use super::case::{Case, START};
use super::forms::forms;

pub fn cases() -> Vec<Case> {
    let mut cases = Vec::new();
    for form in forms() {
        for done in 0..form.cycles {
            let topic = format!("settle after {done} of {}, {}", form.cycles, form.name);
            let case = form.image().topic(topic).run(START + done);
            cases.push(case.settle().settle());
        }
    }
    cases
}
