//! Multiplies of each m, over and over, with a settle in each of their steps.

use super::case::{Case, START};
use crate::assembler::*;
use crate::durations::ends;

/// A case has so many pairs of a run and a settle.
const PAIRS: usize = 8;

pub fn cases() -> Vec<Case> {
    let mut cases = Vec::new();
    for m in 1..=16 {
        let [least, greatest] = ends(m);
        cases.extend(if m % 2 == 0 {
            over_and_over(mla(4, 3, 2, 4), m, least)
        } else {
            over_and_over(mlas(5, 2, 2, 5), m, greatest)
        });
    }
    cases
}

/// Rd is added to, so that each of them shows.
fn over_and_over(word: u32, m: u32, rs: u32) -> Vec<Case> {
    let code = [word, branch_to(4, 0)];
    let steps: Vec<u32> = (1..=m).collect();
    let case = |steps: &[u32]| {
        let topic = format!(
            "settles in a multiply by {rs:X}, after {steps:?} of {}",
            m + 1
        );
        let mut case = Case::new(topic, &code).field(2, rs).field(3, 0x9E37_79B9);
        for (index, step) in steps.iter().enumerate() {
            // The branch comes before all but the first.
            let before = if index == 0 { START } else { 3 };
            case = case.run(before + step).settle();
        }
        case
    };
    steps.chunks(PAIRS).map(case).collect()
}
