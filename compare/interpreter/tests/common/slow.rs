//! Runs and settles cycle by cycle: settles by the table of durations, and in both the sums by the
//! paper's table.

use super::table::{added, added_by_class, plus, START};
use interpreter::durations::duration;
use interpreter::pipeline::Core;
use interpreter::pipeline::Phase::{Refill1, Refill2, Step};
use interpreter::sums::Sums;

/// The cycles left of the instruction or refill under way, by the table of durations.
pub fn left(core: &Core) -> u64 {
    match core.phase {
        Step(1) => 0,
        Step(step) => {
            let word = core.ix.expect("a word in its own steps");
            duration(word, core.flags, &core.r) + 1 - u64::from(step)
        }
        Refill1 => 2,
        Refill2 => 1,
    }
}

/// A settle by that table: 12 and 11 where a run of nothing has them, 13, and then single cycles,
/// none of which but the last comes to a boundary.
pub fn settle(core: &Core, memory: &mut [u8]) -> (u32, u64, Core) {
    let (answer, _, mut now) = core.clone().run(memory, 0);
    if answer != 0 {
        return (answer, 0, now);
    }
    let left = left(core);
    if core.cycles + left > 1 << 40 {
        return (13, 0, now);
    }
    for done in 0..left {
        assert_ne!(now.phase, Step(1), "{done} of {left}");
        let (answer, used, next) = now.clone().run(memory, 1);
        assert_eq!((answer, used), (0, 1));
        assert_eq!(next.sums, sums_after(&now, &next));
        now = next;
    }
    assert_eq!(now.phase, Step(1));
    (0, left, now)
}

/// A run of single cycles, which are not refused in between, as runs of 1 might be.
pub fn run(mut core: Core, memory: &mut [u8], budget: u64) -> (u32, u64, Core) {
    // What a run of nothing refuses or repeats, and then 3 and 13.
    let (answer, _, _) = core.clone().run(memory, 0);
    if answer != 0 || budget > 1_000_000 || core.cycles + budget > 1 << 40 {
        return core.run(memory, budget);
    }
    for done in 0..budget {
        let next = core.clone().cycle(memory);
        if next.stop != 0 {
            assert_eq!(next.sums, core.sums);
            return (next.stop, done, next);
        }
        assert_eq!(next.sums, sums_after(&core, &next));
        core = next;
    }
    (0, budget, core)
}

/// The sums after a cycle that found no stop: they rise only where an instruction or a start ends.
fn sums_after(before: &Core, after: &Core) -> Sums {
    if after.phase != Step(1) {
        return before.sums;
    }
    let more = match (before.phase, before.ix) {
        (Refill2, None) => START,
        (Step(1), Some(word)) => added(word, before.flags, &before.r),
        (_, Some(word)) => added_by_class(word, &before.r),
        _ => panic!("no word was done"),
    };
    plus(before.sums, more)
}
