//! The calls of libslot.a that watch stores, as include/slot_core.h declares them.

use crate::archive::{CoreArray, STALE, STALE_LONG};
use std::os::raw::c_uint;

/// The words of a summary, SLOT_RATE in the header.
pub const RATE: usize = 22;

pub type SummaryArray = [u32; RATE];

extern "C" {
    fn slot_core_store(core: *const u32, address: *mut c_uint) -> c_uint;
    fn slot_rate_run(
        core: *mut u32,
        memory: *mut u8,
        length: usize,
        budget: u64,
        used: *mut u64,
        from: c_uint,
        to: c_uint,
        summary: *mut u32,
    ) -> c_uint;
}

/// The address and the bytes. The array may not be written to; it is lent as one that could be, so
/// that it would show.
pub fn core_store(core: &mut CoreArray) -> (u32, u32) {
    let mut address = STALE;
    // SAFETY: the pointers are to an array of the length that the header names and to a word beside
    // it.
    let bytes = unsafe { slot_core_store(core.as_mut_ptr(), &mut address) };
    (address, bytes)
}

/// The answer and the cycles used.
pub fn rate_run(
    core: &mut CoreArray,
    memory: &mut [u8],
    budget: u64,
    [from, to]: [u32; 2],
    summary: &mut SummaryArray,
) -> (u32, u64) {
    let mut used = STALE_LONG;
    // SAFETY: the pointers are to arrays of the lengths that the header names, none overlaps.
    let answer = unsafe {
        slot_rate_run(
            core.as_mut_ptr(),
            memory.as_mut_ptr(),
            memory.len(),
            budget,
            &mut used,
            from,
            to,
            summary.as_mut_ptr(),
        )
    };
    (answer, used)
}
