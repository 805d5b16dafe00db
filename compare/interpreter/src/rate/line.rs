//! The mean rate from the first store to the last, which decides nothing.

use super::summary::Summary;

/// In kb/s with one decimal, rounded up: of two stores at least, whose ticks differ.
pub fn rate(summary: &Summary, clock: u64) -> String {
    let bits = u128::from(summary.bits - summary.first_bits);
    let ticks = u128::from(summary.ticks.last - summary.ticks.first);
    // Tenths of a kb/s are hundreds of bits a second.
    let tenths = (bits * u128::from(clock)).div_ceil(100 * ticks);
    format!("{}.{}", tenths / 10, tenths % 10)
}
