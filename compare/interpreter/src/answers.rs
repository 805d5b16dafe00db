//! The paper's numbers: what start, the runs and the reader of HEX answer, and what a record's stop
//! holds.

/// The budget is spent, or the start is accepted.
pub const FINE: u32 = 0;

pub const LENGTH: u32 = 1;
pub const ENTRY: u32 = 2;
pub const BUDGET: u32 = 3;
pub const FLAGS: u32 = 4;

pub const BAD_RECORD: u32 = 11;
pub const OTHER_MEMORY: u32 = 12;
pub const TOO_MANY_CYCLES: u32 = 13;

pub const NO_WORD: u32 = 21;
pub const OTHER: u32 = 22;
pub const FORBIDDEN: u32 = 23;
pub const OUTSIDE: u32 = 24;
pub const FETCHED: u32 = 25;

pub const UNSOUND: u32 = 41;
pub const BEYOND: u32 = 42;
pub const NO_END: u32 = 43;

pub const BAD_WINDOW: u32 = 58;

/// The most that one run may be asked to do, in cycles or in instructions.
pub const MOST_BUDGET: u64 = 1_000_000;

/// The most cycles that a core may count.
pub const MOST_CYCLES: u64 = 1 << 40;

/// Counter values are below this.
pub const COUNTER_LIMIT: u32 = 1 << 26;

/// Rule 1 of the numbers caused by the input.
pub fn length_is_bad(length: u64) -> bool {
    length % 4 != 0 || !(16..=65_536).contains(&length)
}

/// What both starts test, in their order: 1, 2, 4.
pub fn start_refusal(length: u64, entry: u32, flags: u32) -> u32 {
    if length_is_bad(length) {
        LENGTH
    } else if entry % 4 != 0 || u64::from(entry) >= length {
        ENTRY
    } else if flags > 15 {
        FLAGS
    } else {
        FINE
    }
}

/// A stop that a record may hold, or none.
pub fn stop_is_known(stop: u32) -> bool {
    stop == 0 || (NO_WORD..=FETCHED).contains(&stop)
}
