//! The calls of libslot.a for Intel HEX, as include/slot_core.h declares them.

use crate::archive::STALE;
use crate::pair::BEYOND;
use std::os::raw::c_uint;

/// The bytes that are lent for a line.
pub const HEX_LINE: usize = 44;

/// What they are filled with before a call, so that those left alone show. It is in no line.
pub const STALE_BYTE: u8 = 0xA5;

extern "C" {
    fn slot_hex_read(text: *const u8, text_length: usize, memory: *mut u8, length: usize)
        -> c_uint;
    fn slot_hex_line(
        memory: *const u8,
        length: usize,
        line: c_uint,
        out: *mut u8,
        written: *mut c_uint,
    ) -> c_uint;
}

/// The answer. The text may not be written to; it is lent as one that could be, so that it would show.
pub fn hex_read(text: &mut [u8], memory: &mut [u8]) -> u32 {
    // SAFETY: the pointers are to so many bytes, which don't overlap.
    unsafe {
        slot_hex_read(
            text.as_mut_ptr(),
            text.len(),
            memory.as_mut_ptr(),
            memory.len(),
        )
    }
}

/// What a call for a line hands back, with bytes that it was not lent behind those of the line.
#[derive(PartialEq, Eq)]
pub struct Line {
    pub answer: u32,
    pub written: u32,
    pub out: [u8; HEX_LINE + BEYOND],
}

/// The memory may not be written to, likewise.
pub fn hex_line(memory: &mut [u8], number: u32) -> Line {
    let mut written = STALE;
    let mut out = [STALE_BYTE; HEX_LINE + BEYOND];
    // SAFETY: the pointers are to arrays of the lengths that the header names, none overlaps.
    let answer = unsafe {
        slot_hex_line(
            memory.as_mut_ptr(),
            memory.len(),
            number,
            out.as_mut_ptr(),
            &mut written,
        )
    };
    Line {
        answer,
        written,
        out,
    }
}
