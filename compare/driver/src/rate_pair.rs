//! A core of each side with the summary of its stores into a window, held together call by call.

use crate::archive::{self, CoreArray};
use crate::comparison::Checked;
use crate::difference::{CallDifference, Outcome};
use crate::pair::{Machine, Pair};
use crate::rate_archive::{core_store, rate_run, SummaryArray};
use crate::records::CORE_NAMES;
use interpreter::answers::BAD_WINDOW;
use interpreter::pipeline::Core;
use interpreter::rate::summary::Summary;
use interpreter::stores::coming;

/// A core's words and behind them the summary's.
const NAMES: [&str; 61] = {
    const SUMMARY: [&str; 22] = [
        "stores",
        "stores high",
        "bits",
        "bits high",
        "first bits",
        "first b. high",
        "first cycle",
        "first c. high",
        "last cycle",
        "last c. high",
        "least gap c.",
        "high",
        "great. gap c.",
        "high",
        "first tick",
        "first t. high",
        "last tick",
        "last t. high",
        "least gap t.",
        "high",
        "great. gap t.",
        "high",
    ];
    let mut names = [""; 61];
    let mut at = 0;
    while at < names.len() {
        names[at] = if at < 39 {
            CORE_NAMES[at]
        } else {
            SUMMARY[at - 39]
        };
        at += 1;
    }
    names
};

#[derive(Clone)]
pub struct RatePair {
    pub core: Pair<Core>,
    product: SummaryArray,
    expected: Summary,
}

impl RatePair {
    /// With a summary of no store yet.
    pub fn new(core: Pair<Core>) -> RatePair {
        RatePair {
            core,
            product: [0; 22],
            expected: Summary::default(),
        }
    }

    /// The same with another summary.
    pub fn set(&mut self, summary: &SummaryArray) {
        self.product = *summary;
        self.expected = Summary::of(summary);
    }

    /// The same with another's summary.
    pub fn take_summary(&mut self, other: &RatePair) {
        self.product = other.product;
        self.expected = other.expected;
    }

    pub fn summary(&self) -> &Summary {
        &self.expected
    }

    /// What the coming cycle stores, asked of both: the address and the bytes.
    pub fn store(&self) -> Checked<(u32, u32)> {
        let before = self.core.product;
        let mut lent = before;
        let product = core_store(&mut lent);
        let expected = self.core.expected.as_ref().map_or((0, 0), coming);
        if product == expected && lent == before {
            return Ok(expected);
        }
        let outcome = |(address, bytes): (u32, u32), record: &CoreArray| Outcome {
            answer: bytes,
            used: address.into(),
            record: record.to_vec(),
        };
        Err(Box::new(CallDifference {
            kind: Core::KIND,
            names: Core::NAMES,
            call: "store (bytes are the answer, the address in decimal is what was used)"
                .to_string(),
            before: before.to_vec(),
            product: outcome(product, &lent),
            expected: outcome(expected, &before),
            byte: None,
            sums_hold: true,
        }))
    }

    /// A run of each that folds into the summaries.
    pub fn run(&mut self, lent: usize, budget: u64, window: [u32; 2]) -> Checked<(u32, u64)> {
        let before = joined(&self.core.product, &self.product);
        let name = || {
            let [from, to] = window;
            format!("rate run lent {lent} budget {budget} from {from:X} to {to:X}")
        };
        let (product, expected) = (&mut self.product, &mut self.expected);
        let came = self.core.call(
            lent,
            |core, memory| rate_run(core, memory, budget, window, product),
            |core, memory| core.rate_run(memory, budget, window, expected),
            name,
        );
        let wanted = self.expected.array();
        match came {
            Ok(came) if self.product == wanted => Ok(came),
            Ok((answer, used)) => {
                let core = self.core.product;
                let outcome = |summary| Outcome {
                    answer,
                    used,
                    record: joined(&core, summary),
                };
                Err(Box::new(CallDifference {
                    kind: Core::KIND,
                    names: &NAMES,
                    call: name(),
                    before,
                    product: outcome(&self.product),
                    expected: outcome(&wanted),
                    byte: None,
                    sums_hold: true,
                }))
            }
            Err(mut difference) => {
                difference.names = &NAMES;
                difference.before = before;
                difference.product.record.extend(self.product);
                difference.expected.record.extend(wanted);
                Err(difference)
            }
        }
    }

    /// The same, and the product's own unwatched run from the same place: but for a window that is
    /// refused, both do and answer the same.
    pub fn run_beside(
        &mut self,
        lent: usize,
        budget: u64,
        window: [u32; 2],
    ) -> Checked<(u32, u64)> {
        let before = self.core.product;
        let mut core = before;
        let mut memory = self.core.lent(lent).to_vec();
        let came = self.run(lent, budget, window)?;
        let unwatched = archive::core_run(&mut core, &mut memory, budget);
        if came.0 == BAD_WINDOW {
            return Ok(came);
        }
        let same_memory = memory == self.core.lent(lent);
        if came == unwatched && core == self.core.product && same_memory {
            return Ok(came);
        }
        let byte = (0..lent).find(|&at| memory[at] != self.core.lent(lent)[at]);
        Err(Box::new(CallDifference {
            kind: Core::KIND,
            names: Core::NAMES,
            call: format!(
                "rate run lent {lent} budget {budget}, and here as the interpreter the product's own run"
            ),
            before: before.to_vec(),
            product: Outcome {
                answer: came.0,
                used: came.1,
                record: self.core.product.to_vec(),
            },
            expected: Outcome {
                answer: unwatched.0,
                used: unwatched.1,
                record: core.to_vec(),
            },
            byte: byte.map(|at| (at, self.core.lent(lent)[at], memory[at])),
            sums_hold: true,
        }))
    }
}

fn joined(core: &CoreArray, summary: &SummaryArray) -> Vec<u32> {
    [core.as_slice(), summary.as_slice()].concat()
}
