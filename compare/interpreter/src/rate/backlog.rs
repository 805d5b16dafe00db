//! What waits in a buffer that an option drains, without a buffer: as the drain never goes below
//! empty, the level after a store is the greatest, over all spans of stores that end with it, of
//! the span's bits less what the option takes from its first store to its last.
//!
//! All is counted in bits times the clock, so that nothing is divided. With B(i) the clock times
//! the bits of the first i stores and D(i) what the option takes up to store i's tick, a span from
//! i to n leaves (B(n) - D(n)) - (B(i-1) - D(i)): the greatest is the one whose second term is the
//! least so far.

/// An option of kb/s, on a link whose slot memory has so many ticks a second.
pub struct Backlog {
    clock: i128,
    per_tick: i128,
    full: i128,
    /// How many stores the first half has, and how many came so far.
    half: u64,
    stores: u64,
    handed_over: i128,
    least: i128,
    greatest: [i128; 2],
    overflow: Option<Overflow>,
}

/// The first store, from 1, after which there was more than the buffer holds.
#[derive(Clone, Copy, Debug, PartialEq, Eq)]
pub struct Overflow {
    pub store: u64,
    pub tick: u64,
}

#[derive(Clone, Copy, Debug, PartialEq, Eq)]
pub struct Verdict {
    /// In bits, rounded up.
    pub backlog: u64,
    pub grows: bool,
    pub overflow: Option<Overflow>,
}

impl Verdict {
    pub fn fits(&self) -> bool {
        self.overflow.is_none()
    }

    pub fn serves(&self) -> bool {
        self.fits() && !self.grows
    }
}

impl Backlog {
    /// For a list of so many stores, and a buffer of so many words.
    pub fn new(option: u64, clock: u64, words: u64, stores: u64) -> Backlog {
        Backlog {
            clock: clock.into(),
            per_tick: i128::from(1000 * option),
            full: i128::from(32 * words) * i128::from(clock),
            half: stores / 2,
            stores: 0,
            handed_over: 0,
            least: i128::MAX,
            greatest: [0; 2],
            overflow: None,
        }
    }

    /// The next store.
    pub fn add(&mut self, tick: u64, bits: u64) {
        let taken = self.per_tick * i128::from(tick);
        self.least = self.least.min(self.handed_over - taken);
        self.handed_over += self.clock * i128::from(bits);
        self.stores += 1;
        let level = self.handed_over - taken - self.least;
        let half = &mut self.greatest[usize::from(self.stores > self.half)];
        *half = level.max(*half);
        if level > self.full && self.overflow.is_none() {
            self.overflow = Some(Overflow {
                store: self.stores,
                tick,
            });
        }
    }

    pub fn verdict(&self) -> Verdict {
        let [first, rest] = self.greatest;
        let backlog = (first.max(rest) + self.clock - 1) / self.clock;
        Verdict {
            backlog: backlog.try_into().expect("bits of a run"),
            grows: rest > first,
            overflow: self.overflow,
        }
    }
}
