//! The pipeline's stores, by watching what its cycles write.

use super::Store;
use crate::arm::{decode, Instruction};
use crate::memory::{self, Lent};
use crate::pipeline::{Core, Phase};

/// A memory that keeps the last write until it is asked for.
struct Watched<'a> {
    bytes: &'a mut [u8],
    written: Option<(u32, u32)>,
}

impl Lent for Watched<'_> {
    fn bytes(&self) -> &[u8] {
        self.bytes
    }

    fn store(&mut self, address: u32, value: u32, byte: bool) {
        assert!(self.written.is_none(), "a cycle writes once");
        memory::store(self.bytes, address, value, byte);
        self.written = Some(if byte {
            (address, 1)
        } else {
            (address & !3, 4)
        });
    }
}

/// What a watched run came to.
#[derive(Clone, Copy, Debug, PartialEq, Eq)]
pub struct Outcome {
    /// The stop found, or 0 where the budget is spent.
    pub stop: u32,
    pub used: u64,
}

/// Does so many cycles, fewer where a stop is found and set, and tells each store as it is written.
/// The core is a good one without a stop, and the memory is its own.
pub fn watch(
    core: &mut Core,
    memory: &mut [u8],
    budget: u64,
    mut each: impl FnMut(Store),
) -> Outcome {
    let mut lent = Watched {
        bytes: memory,
        written: None,
    };
    for used in 0..budget {
        let (phase, before) = (core.phase, core.sums.ticks());
        if let Err(stop) = core.advance(&mut lent) {
            core.stop = stop;
            return Outcome { stop, used };
        }
        if let Some((address, bytes)) = lent.written.take() {
            each(Store {
                cycle: core.cycles,
                tick: before + ticks_through(phase),
                address,
                bytes,
            });
        }
    }
    Outcome {
        stop: 0,
        used: budget,
    }
}

/// The ticks of a store's own steps up to and with this one. The first moves the address and the
/// second writes somewhere else: two accesses that are not in sequence. Those after it go on from
/// word to word.
fn ticks_through(phase: Phase) -> u64 {
    let Phase::Step(last) = phase else {
        unreachable!("refills write nothing");
    };
    (1..=last).map(|step| if step <= 2 { 2 } else { 1 }).sum()
}

/// The core after so many cycles, or where it stopped, and the stores on the way.
pub fn of_pipeline(core: &Core, memory: &mut [u8], cycles: u64) -> (Core, Vec<Store>) {
    let mut core = core.clone();
    let mut stores = Vec::new();
    watch(&mut core, memory, cycles, |store| stores.push(store));
    (core, stores)
}

/// What the coming cycle of any core stores, by its phase, IX and address latch alone: where and
/// how many bytes, or 0 and 0. Of a core that can be run it is what that cycle writes, which tests
/// hold it to.
pub fn coming(core: &Core) -> (u32, u32) {
    const NOTHING: (u32, u32) = (0, 0);
    let (0, Some(word), Phase::Step(step @ 2..)) = (core.stop, core.ix, core.phase) else {
        return NOTHING;
    };
    match decode(word) {
        Instruction::Single(it) if !it.load && it.byte => (core.address, 1),
        Instruction::Single(it) if !it.load => (core.address & !3, 4),
        Instruction::Block(it) if !it.load && step < it.list.count_ones() + 2 => {
            (core.address & !3, 4)
        }
        _ => NOTHING,
    }
}
