//! Settle: the cycles left of the instruction or refill under way, and no more.

use crate::answers::{FINE, MOST_CYCLES, TOO_MANY_CYCLES};
use crate::pipeline::{Core, Phase};

impl Core {
    /// The answer, the cycles used and the core afterwards, which is at a boundary unless the call
    /// was refused. The cycles are done on copies, so that there is a way back where they turn out
    /// to be too many.
    pub fn settle(self, memory: &mut [u8]) -> (u32, u64, Core) {
        // A run of no cycles is refused by 12 and 11 alone, and repeats a stop held.
        let (answer, _, core) = self.run(memory, 0);
        if answer != FINE {
            return (answer, 0, core);
        }
        let mut lent = memory.to_vec();
        let mut settled = core.clone();
        // A stop is found before step 1 only, which none of these cycles does.
        while settled.phase != Phase::Step(1) {
            settled = settled.cycle(&mut lent);
        }
        if settled.cycles > MOST_CYCLES {
            return (TOO_MANY_CYCLES, 0, core);
        }
        memory.copy_from_slice(&lent);
        (FINE, settled.cycles - core.cycles, settled)
    }
}
