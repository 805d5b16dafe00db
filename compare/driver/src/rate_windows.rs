//! Windows of every kind, and summaries that no run has made.

use crate::rate_archive::SummaryArray;
use interpreter::random::Random;

pub type Ends = [u32; 2];

/// Mostly one that is taken, as often as not about an address that a store went to.
pub fn drawn(random: &mut Random, length: u32, near: u32) -> Ends {
    if random.chance(1, 6) {
        bad(random, length)
    } else {
        good(random, length, near)
    }
}

pub fn good(random: &mut Random, length: u32, near: u32) -> Ends {
    let words = length / 4;
    let about = (near / 4).min(words - 1);
    let (from, to) = match random.below(8) {
        0 | 1 => (0, words),
        2 => (0, 1 + random.below(words)),
        3 => (random.below(words), words),
        4 => (about, about + 1),
        5 => (about.saturating_sub(random.below(9)), about + 1),
        6 => (about, (about + 1 + random.below(9)).min(words)),
        _ => {
            let from = random.below(words);
            (from, from + 1 + random.below(words - from))
        }
    };
    [4 * from, 4 * to]
}

/// Off a word, empty, the wrong way round, or past the memory: one of them or several.
pub fn bad(random: &mut Random, length: u32) -> Ends {
    let [from, to] = good(random, length, length / 2);
    let off = 1 + random.below(3);
    match random.below(11) {
        0 => [from + off, to],
        1 => [from, to - off],
        2 => [from + off, to + off],
        3 => [from, from],
        4 => [to, from],
        5 => [from, length + 4],
        6 => [length, length],
        7 => [length, length + 4],
        8 => [
            from,
            random.pick(&[u32::MAX, u32::MAX - 3, 1 << 31, 1 << 16 | length]),
        ],
        9 => [random.pick(&[u32::MAX - 3, 1 << 31, 1 << 16]), to],
        _ => [0, 0],
    }
}

/// No store, one, many or too many to count, and any other numbers with them.
pub fn summary(random: &mut Random) -> SummaryArray {
    let mut summary = [0; 22];
    for at in (0..22).step_by(2) {
        let number = match random.below(6) {
            0 => random.pick(&[0, 1, 2, 3]),
            1 => random.draw() >> random.below(64),
            2 => u64::MAX - random.pick(&[0, 1, 7, 8, 31, 32, 33]),
            3 => (1 << 32) - random.pick(&[0, 1, 32]),
            _ => u64::from(random.below(400)),
        };
        summary[at] = number as u32;
        summary[at + 1] = (number >> 32) as u32;
    }
    if random.chance(1, 2) {
        summary[..2].copy_from_slice(&[random.below(3), 0]);
    }
    summary
}
