//! Cores that a run takes, and cores that it refuses.

use super::table::sums;
use interpreter::arm::Shift;
use interpreter::assembler::*;
use interpreter::pipeline::Core;
use interpreter::pipeline::Phase::{Refill1, Refill2, Step};
use interpreter::programs::{self, instruction};
use interpreter::random::Random;
use interpreter::sums::Sums;

/// A core on a boundary of a memory of 64 bytes, that could be run.
pub fn good() -> Core {
    Core {
        pc: 8,
        flags: 3,
        ir1: Some(0xF000_0001),
        ir2: Some(0xF000_0000),
        ix: Some(0xF000_0000),
        cycles: 10,
        retired: 4,
        sums: sums([2, 4, 1]),
        length: 64,
        ..Core::zeroed()
    }
}

/// What no run and no settle takes, each bad for one reason.
pub fn bad_cores() -> Vec<Core> {
    let core = good();
    let mut bad = bad_by_numbers(&core);
    bad.extend(bad_sums().map(|sums| Core {
        sums,
        ..core.clone()
    }));
    // Its word is of a condition that never passes.
    bad.extend([Refill1, Refill2].map(|phase| Core {
        phase,
        ..core.clone()
    }));
    bad
}

/// Above 10 cycles, though they may not be modulo 2^64.
fn bad_sums() -> [Sums; 12] {
    const TOP: u64 = 1 << 63;
    const THIRD: u64 = u64::MAX / 3;
    [
        [11, 0, 0],
        [0, 11, 0],
        [0, 0, 11],
        [4, 4, 3],
        [1 << 32, 0, 0],
        [TOP, TOP, 0],
        [0, TOP, TOP],
        [TOP, 10, TOP],
        [u64::MAX, 1, 0],
        [u64::MAX, 0, 11],
        [THIRD, THIRD, THIRD + 1],
        [u64::MAX; 3],
    ]
    .map(sums)
}

fn bad_by_numbers(core: &Core) -> Vec<Core> {
    vec![
        Core {
            length: 0,
            ..core.clone()
        },
        Core {
            length: 12,
            ..core.clone()
        },
        Core {
            length: 18,
            ..core.clone()
        },
        Core {
            length: 65_540,
            ..core.clone()
        },
        Core {
            pc: 2,
            ..core.clone()
        },
        Core {
            pc: 0x0400_0000,
            ..core.clone()
        },
        Core {
            flags: 16,
            ..core.clone()
        },
        Core {
            cycles: (1 << 40) + 1,
            ..core.clone()
        },
        Core {
            cycles: u64::MAX,
            retired: u64::MAX,
            ..core.clone()
        },
        Core {
            retired: 11,
            ..core.clone()
        },
        Core {
            stop: 1,
            ..core.clone()
        },
        Core {
            stop: 20,
            ..core.clone()
        },
        Core {
            stop: 26,
            ..core.clone()
        },
        Core {
            stop: 21,
            phase: Refill1,
            ix: None,
            ..core.clone()
        },
        Core {
            stop: 25,
            phase: Refill2,
            ix: Some(branch(0)),
            ..core.clone()
        },
        Core {
            phase: Step(0),
            ..core.clone()
        },
        Core {
            phase: Step(2),
            ..core.clone()
        },
        Core {
            phase: Step(2),
            ix: None,
            ..core.clone()
        },
        Core {
            phase: Step(u32::MAX),
            ..core.clone()
        },
    ]
}

/// A record of any kind, as good as not.
pub fn any_core(random: &mut Random) -> Core {
    let any_word = |random: &mut Random| {
        let word = match random.below(5) {
            0 => random.word(),
            _ => instruction(random),
        };
        random.chance(9, 10).then_some(word)
    };
    let mut r = programs::registers(random, 64);
    r[3] = random.word();
    let mut core = Core {
        r,
        pc: 4 * random.below(20),
        flags: random.below(16),
        ir1: any_word(random),
        ir2: any_word(random),
        ix: any_word(random),
        phase: match random.below(8) {
            0 => Refill1,
            1 => Refill2,
            2 => Step(1),
            3 => Step(2 + random.below(17)),
            _ => Step(2 + random.below(6)),
        },
        address: random.below(68),
        data: random.word(),
        base: random.below(64),
        cycles: 30,
        retired: random.below(30).into(),
        sums: sums([0; 3].map(|_| random.below(4).into())),
        stop: 0,
        length: 64,
    };
    if matches!(core.phase, Refill1 | Refill2) && random.chance(2, 3) {
        core.ix = Some(to_r15(random));
    }
    match random.below(60) {
        0 => core.pc = random.word(),
        1 => core.pc = 0x03FF_FFFC,
        2 => core.flags = random.below(18),
        3 => core.address = random.word(),
        4 => core.stop = random.below(30),
        5 => core.retired = 31,
        6 => core.cycles = (1 << 40) - 20,
        // As many as the cycles, some more, or some less, by which a retirement soon passes them.
        7..=14 => core.sums = sums([0; 3].map(|_| 5 + u64::from(random.below(8)))),
        15 => core.sums.i = random.draw(),
        _ => {}
    }
    core
}

/// A word that can store the counter, whether its condition passes or not.
fn to_r15(random: &mut Random) -> u32 {
    let word = random.pick(&[
        branch(-2),
        branch_link(-3),
        mov(15, plain(1)),
        ops(ADD, 15, 15, by_register(3, Shift::Lsr, 3)),
        ldr(15, 15, 4),
        block(LOAD | UP | W, 1, 0x8006),
        block(LOAD, 3, 0xFFFF),
    ]);
    on(random.below(15), word)
}

/// A run or a settle takes the sums, as far as they go. An accepted call may leave a record of which
/// this isn't so, though not one that begins with a start.
pub fn sums_are_good(core: &Core) -> bool {
    let Sums { n, s, i } = core.sums;
    let together = n.checked_add(s).and_then(|sum| sum.checked_add(i));
    together.is_some_and(|together| together <= core.cycles)
}
