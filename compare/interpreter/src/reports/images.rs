//! The paper's sample, and images by their length.

use super::case::Case;
use crate::assembler::*;

pub fn cases() -> Vec<Case> {
    vec![
        Case::new("22 the paper's sample", &SAMPLE).length(16),
        Case::new("refused: empty", &[]).length(0),
        Case::new("refused: 12 bytes", &SAMPLE[..3]).length(12),
        Case::new("refused: 15 bytes", &SAMPLE).length(15),
        Case::new("refused: 18 bytes, a word across the end", &[SWI; 5]).length(18),
        Case::new("24 past the end of 65,536 bytes", &at_the_end()).length(65_536),
        Case::new("refused: 65,540 bytes", &at_the_end()).length(65_540),
        Case::new("refused: 65,544 bytes", &SAMPLE).length(65_544),
        Case::new("21 at the length, a word beyond", &[0, 0, 0, 0, SWI]).length(16),
    ]
}

const SAMPLE: [u32; 4] = [0xE3A0_0005, 0xE250_0001, 0x1AFF_FFFD, 0xEF00_0000];

/// Writes and reads the last word of 65,536 bytes, then reads past it.
fn at_the_end() -> Vec<u32> {
    vec![
        mov(1, rotated(8, 1)),
        op(MVN, 2, 0, number(0x12)),
        single(STORE | BEFORE, 2, 1, 4),
        single(LOAD | BEFORE, 3, 1, 4),
        single(LOAD | BEFORE | BYTE, 4, 1, 4),
        ldr(5, 1, 0),
    ]
}
