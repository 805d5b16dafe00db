//! Sums that go with a core's cycles, and sums that don't.

use crate::archive::{CORE_CYCLES, CORE_SUM_I, CORE_SUM_N, CORE_SUM_S};
use crate::odd::count;
use interpreter::random::Random;

/// So many N, S and I.
pub type Numbers = [u64; 3];

const WORD: u64 = 1 << 32;
const MOST_CYCLES: u64 = 1 << 40;
const TOP: u64 = 1 << 63;
const THIRD: u64 = u64::MAX / 3;

/// The sums that an array of a core holds.
pub fn of(array: &[u32]) -> Numbers {
    [CORE_SUM_N, CORE_SUM_S, CORE_SUM_I].map(|place| count(array, place))
}

/// The fields of an array for these sums.
pub fn fields([n, s, i]: Numbers) -> Vec<(usize, u32)> {
    let counts = [(CORE_SUM_N, n), (CORE_SUM_S, s), (CORE_SUM_I, i)];
    counts.into_iter().flat_map(|it| long(it.0, it.1)).collect()
}

/// The fields of a count of 64 bits.
pub fn long(place: usize, value: u64) -> [(usize, u32); 2] {
    [(place, value as u32), (place + 1, (value >> 32) as u32)]
}

/// What comes to the cycles in one, two and three sums, and to one more.
pub fn close(cycles: u64) -> Vec<Numbers> {
    let (half, third) = (cycles / 2, cycles / 3);
    let all = [
        [cycles, 0, 0],
        [half, cycles - half, 0],
        [third, third, cycles - 2 * third],
    ];
    let more = all.map(|[one, two, three]| [one.wrapping_add(1), two, three]);
    in_turn(&[all, more].concat())
}

/// What passes them by far: modulo 2^64, or 2^32, most come to the cycles or to less; some are below 0
/// where they have signs; some are in the high words alone.
pub fn far(cycles: u64) -> Vec<Numbers> {
    in_turn(&[
        [TOP, TOP, 0],
        [TOP, TOP, cycles],
        [TOP, TOP / 2, TOP / 2],
        [u64::MAX, 1, 0],
        [u64::MAX, cycles.wrapping_add(1), 0],
        [u64::MAX, u64::MAX, cycles.wrapping_add(2)],
        [THIRD, THIRD, THIRD.wrapping_add(1).wrapping_add(cycles)],
        [u64::MAX; 3],
        [TOP, 0, 0],
        [TOP - 1, 0, 0],
        [TOP - 1, 1, 0],
        [TOP | cycles, 0, 0],
        [WORD, 0, 0],
        [WORD | cycles, 0, 0],
        [WORD; 3],
        [WORD - 1, 1, 0],
        [WORD - 1, 0, cycles.wrapping_add(1)],
        [u64::MAX - (WORD - 1), 0, 0],
    ])
}

/// Each of them N, S and I in turn.
fn in_turn(sums: &[Numbers]) -> Vec<Numbers> {
    let turns =
        |&[one, two, three]: &Numbers| [[one, two, three], [two, three, one], [three, one, two]];
    sums.iter().flat_map(turns).collect()
}

/// Fields for a core of so many cycles: odd sums, also with other cycles, whose high word counts.
pub fn about(cycles: u64) -> Vec<Vec<(usize, u32)>> {
    let own = [close(cycles), far(cycles)].concat();
    let mut sets: Vec<_> = own.into_iter().map(fields).collect();
    for other in [WORD - 1, WORD + 5, MOST_CYCLES - 40, MOST_CYCLES] {
        sets.extend(close(other).into_iter().map(|sums| {
            let mut set = fields(sums);
            set.extend(long(CORE_CYCLES, other));
            set
        }));
    }
    sets
}

/// Parts of the cycles, mostly all of them, or any of the above.
pub fn drawn(random: &mut Random, cycles: u64) -> Numbers {
    match random.below(4) {
        0 => random.pick(&close(cycles)),
        1 => random.pick(&far(cycles)),
        _ => {
            let mut part = |most: u64| random.draw() % most.saturating_add(1);
            let one = part(cycles);
            let two = part(cycles - one);
            let left = cycles - one - two;
            let more = random.pick(&[0, 0, 0, 1, u64::MAX, WORD]);
            let mut sums = [one, two, left.wrapping_add(more)];
            sums.rotate_left(random.below(3) as usize);
            sums
        }
    }
}

#[cfg(test)]
mod tests {
    use super::*;

    fn together(sums: Numbers) -> u128 {
        sums.into_iter().map(u128::from).sum()
    }

    #[test]
    fn half_of_the_close_ones_come_to_the_cycles() {
        for cycles in [0, 1, 2, 3, 10, WORD + 5, MOST_CYCLES] {
            let close = close(cycles);
            let (all, more) = close.split_at(close.len() / 2);
            assert!(all.iter().all(|&sums| together(sums) == cycles.into()));
            let one_more = u128::from(cycles) + 1;
            assert!(more.iter().all(|&sums| together(sums) == one_more));
        }
    }

    #[test]
    fn the_far_ones_pass_them() {
        for cycles in [0, 1, 10, 400] {
            assert!(far(cycles)
                .iter()
                .all(|&sums| together(sums) > cycles.into()));
        }
    }
}
