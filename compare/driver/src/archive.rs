//! The calls of libslot.a, as include/slot_core.h declares them.

use std::os::raw::c_uint;

pub type CoreArray = [u32; 39];
pub type PlainArray = [u32; 19];
pub type RecordArray = [u32; 16];

// Places in a core's array. A count takes two, the low word first.
pub const CORE_PC: usize = 15;
pub const CORE_FLAGS: usize = 16;
pub const CORE_IR1: usize = 17;
pub const CORE_IR2: usize = 19;
pub const CORE_IX: usize = 21;
pub const CORE_PHASE: usize = 23;
pub const CORE_ADDRESS: usize = 24;
pub const CORE_DATUM: usize = 25;
pub const CORE_BASE: usize = 26;
pub const CORE_CYCLES: usize = 27;
pub const CORE_RETIRED: usize = 29;
pub const CORE_STOP: usize = 31;
pub const CORE_LENGTH: usize = 32;
pub const CORE_SUM_N: usize = 33;
pub const CORE_SUM_S: usize = 35;
pub const CORE_SUM_I: usize = 37;

extern "C" {
    fn slot_abi_2() -> c_uint;
    fn slot_core_start(
        core: *mut u32,
        registers: *const u32,
        flags: c_uint,
        entry: c_uint,
        memory: *const u8,
        length: usize,
    ) -> c_uint;
    fn slot_core_run(
        core: *mut u32,
        memory: *mut u8,
        length: usize,
        budget: u64,
        used: *mut u64,
    ) -> c_uint;
    fn slot_core_settle(core: *mut u32, memory: *mut u8, length: usize, used: *mut u64) -> c_uint;
    fn slot_plain_start(
        plain: *mut u32,
        registers: *const u32,
        flags: c_uint,
        entry: c_uint,
        memory: *const u8,
        length: usize,
    ) -> c_uint;
    fn slot_plain_run(
        plain: *mut u32,
        memory: *mut u8,
        length: usize,
        count: u64,
        used: *mut u64,
    ) -> c_uint;
    fn slot_word_read(word: c_uint, record: *mut u32);
    fn slot_word_write(record: *const u32, word: *mut u32) -> c_uint;
}

/// Refers to the number of the layouts, so that an archive of another one does not link.
#[used]
static ABI: unsafe extern "C" fn() -> c_uint = slot_abi_2;

/// What results are filled with before a call, so that one left unwritten shows.
pub(crate) const STALE: u32 = 0xA5A5_A5A5;
pub(crate) const STALE_LONG: u64 = 0xA5A5_A5A5_A5A5_A5A5;

/// The answer and the core.
pub fn core_start(r: &[u32; 15], flags: u32, entry: u32, memory: &[u8]) -> (u32, CoreArray) {
    let mut core = [STALE; 39];
    // SAFETY: the pointers are to arrays of the lengths that the header names, none overlaps.
    let answer = unsafe {
        slot_core_start(
            core.as_mut_ptr(),
            r.as_ptr(),
            flags,
            entry,
            memory.as_ptr(),
            memory.len(),
        )
    };
    (answer, core)
}

/// The answer and the cycles used.
pub fn core_run(core: &mut CoreArray, memory: &mut [u8], budget: u64) -> (u32, u64) {
    let mut used = STALE_LONG;
    // SAFETY: as above.
    let answer = unsafe {
        slot_core_run(
            core.as_mut_ptr(),
            memory.as_mut_ptr(),
            memory.len(),
            budget,
            &mut used,
        )
    };
    (answer, used)
}

/// The answer and the cycles used.
pub fn core_settle(core: &mut CoreArray, memory: &mut [u8]) -> (u32, u64) {
    let mut used = STALE_LONG;
    // SAFETY: as above.
    let answer = unsafe {
        slot_core_settle(
            core.as_mut_ptr(),
            memory.as_mut_ptr(),
            memory.len(),
            &mut used,
        )
    };
    (answer, used)
}

/// The answer and the plain machine.
pub fn plain_start(r: &[u32; 15], flags: u32, entry: u32, memory: &[u8]) -> (u32, PlainArray) {
    let mut plain = [STALE; 19];
    // SAFETY: as above.
    let answer = unsafe {
        slot_plain_start(
            plain.as_mut_ptr(),
            r.as_ptr(),
            flags,
            entry,
            memory.as_ptr(),
            memory.len(),
        )
    };
    (answer, plain)
}

/// The answer and the instructions done.
pub fn plain_run(plain: &mut PlainArray, memory: &mut [u8], count: u64) -> (u32, u64) {
    let mut used = STALE_LONG;
    // SAFETY: as above.
    let answer = unsafe {
        slot_plain_run(
            plain.as_mut_ptr(),
            memory.as_mut_ptr(),
            memory.len(),
            count,
            &mut used,
        )
    };
    (answer, used)
}

pub fn word_read(word: u32) -> RecordArray {
    let mut record = [STALE; 16];
    // SAFETY: as above.
    unsafe { slot_word_read(word, record.as_mut_ptr()) };
    record
}

/// The answer and the word.
pub fn word_write(record: &RecordArray) -> (u32, u32) {
    let mut word = STALE;
    // SAFETY: as above.
    let answer = unsafe { slot_word_write(record.as_ptr(), &mut word) };
    (answer, word)
}
