//! The stores of a run with their cycles and ticks, by two roads that share nothing: what the
//! pipeline's cycles write, and what the plain machine's instructions mean.

mod plain;
mod watched;

pub use plain::of_plain;
pub use watched::{coming, of_pipeline, watch, Outcome};

/// One store: the cycle that writes, counted from the start's first as 1, and the ticks up to and
/// with it. A word's address has its low two bits cleared, a byte's is its own.
#[derive(Clone, Copy, Debug, PartialEq, Eq)]
pub struct Store {
    pub cycle: u64,
    pub tick: u64,
    pub address: u32,
    pub bytes: u32,
}

impl Store {
    pub fn bits(&self) -> u64 {
        8 * u64::from(self.bytes)
    }
}
