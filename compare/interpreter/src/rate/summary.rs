//! What is kept of the stores into a window, whatever their number.

use crate::stores::Store;

pub const WORDS: usize = 22;

/// Distances from store to store, the least and the greatest of all.
#[derive(Clone, Copy, Debug, Default, PartialEq, Eq)]
pub struct Gaps {
    pub least: u64,
    pub greatest: u64,
}

/// When the first and the last store were, by one way to count, and the gaps between all.
#[derive(Clone, Copy, Debug, Default, PartialEq, Eq)]
pub struct Moments {
    pub first: u64,
    pub last: u64,
    pub gaps: Gaps,
}

#[derive(Clone, Copy, Debug, Default, PartialEq, Eq)]
pub struct Summary {
    pub stores: u64,
    pub bits: u64,
    pub first_bits: u64,
    pub cycles: Moments,
    pub ticks: Moments,
}

impl Summary {
    pub fn fold(&mut self, store: &Store) {
        let bits = store.bits();
        if self.stores == 0 {
            *self = Summary {
                stores: 1,
                bits,
                first_bits: bits,
                cycles: Moments::at(store.cycle),
                ticks: Moments::at(store.tick),
            };
            return;
        }
        let has_gaps = self.stores > 1;
        self.cycles.go_on(store.cycle, has_gaps);
        self.ticks.go_on(store.tick, has_gaps);
        self.stores = self.stores.saturating_add(1);
        self.bits = self.bits.saturating_add(bits);
    }

    /// The numbers in the order of slot_core.h.
    fn numbers(&self) -> [u64; WORDS / 2] {
        let Summary { cycles, ticks, .. } = self;
        [
            self.stores,
            self.bits,
            self.first_bits,
            cycles.first,
            cycles.last,
            cycles.gaps.least,
            cycles.gaps.greatest,
            ticks.first,
            ticks.last,
            ticks.gaps.least,
            ticks.gaps.greatest,
        ]
    }

    /// The array of words, the low one of each number first.
    pub fn array(&self) -> [u32; WORDS] {
        let numbers = self.numbers();
        std::array::from_fn(|at| (numbers[at / 2] >> (32 * (at % 2))) as u32)
    }

    /// Every array stands for a summary.
    pub fn of(array: &[u32; WORDS]) -> Summary {
        let number = |at: usize| u64::from(array[at]) | u64::from(array[at + 1]) << 32;
        let moments = |at: usize| Moments {
            first: number(at),
            last: number(at + 2),
            gaps: Gaps {
                least: number(at + 4),
                greatest: number(at + 6),
            },
        };
        Summary {
            stores: number(0),
            bits: number(2),
            first_bits: number(4),
            cycles: moments(6),
            ticks: moments(14),
        }
    }
}

impl Moments {
    fn at(now: u64) -> Moments {
        Moments {
            first: now,
            last: now,
            gaps: Gaps::default(),
        }
    }

    /// The next store; a count that went back in between is no distance.
    fn go_on(&mut self, now: u64, has_gaps: bool) {
        let gap = now.saturating_sub(self.last);
        self.last = now;
        self.gaps = if has_gaps {
            Gaps {
                least: self.gaps.least.min(gap),
                greatest: self.gaps.greatest.max(gap),
            }
        } else {
            Gaps {
                least: gap,
                greatest: gap,
            }
        };
    }
}
