//! The core's whole record after each cycle, by the table of the latches.

mod common;

use common::table::{plus, sums, START};
use common::{memory, registers};
use interpreter::arm::Shift;
use interpreter::assembler::*;
use interpreter::durations::ends;
use interpreter::memory::word;
use interpreter::pipeline::{Core, Phase};
use Phase::{Refill1, Refill2, Step};

/// The core about to do step 1 of a word at 8, in a memory of 128 bytes whose words count up.
fn before(instruction: u32, r: [u32; 15], flags: u32) -> (Core, Vec<u8>) {
    let mut lent: Vec<u32> = (0..32).map(|index| 0xF000_0000 + index * 0x0101).collect();
    lent[2] = instruction;
    let mut lent = memory(128, &lent);
    let (_, core) = Core::start(r, flags, 8, &lent);
    let (answer, used, core) = core.run(&mut lent, 2);
    assert_eq!((answer, used, core.phase, core.retired), (0, 2, Step(1), 0));
    (core, lent)
}

/// Phase and latches after each cycle, up to the next boundary.
fn cycles(core: &mut Core, lent: &mut [u8]) -> Vec<(Phase, u32, u32, u32)> {
    let mut seen = Vec::new();
    loop {
        let (answer, used, next) = core.clone().run(lent, 1);
        assert_eq!((answer, used), (0, 1));
        *core = next;
        seen.push((core.phase, core.address, core.data, core.base));
        if core.phase == Step(1) {
            return seen;
        }
    }
}

fn at(lent: &[u8], address: u32) -> u32 {
    word(lent, address)
}

#[test]
fn a_start() {
    let mut lent = memory(16, &[0xF000_0001, 0xF000_0002, 0xF000_0003, 0xF000_0004]);
    let (_, core) = Core::start([9; 15], 5, 8, &lent);
    let fresh = Core {
        r: [9; 15],
        pc: 8,
        flags: 5,
        phase: Refill1,
        length: 16,
        ..Core::zeroed()
    };
    assert_eq!(core, fresh);
    let (_, _, core) = core.run(&mut lent, 1);
    let one = Core {
        pc: 12,
        ir1: Some(0xF000_0003),
        phase: Refill2,
        cycles: 1,
        ..fresh
    };
    assert_eq!(core, one);
    let (_, _, core) = core.run(&mut lent, 1);
    let two = Core {
        pc: 16,
        ir1: Some(0xF000_0004),
        ir2: Some(0xF000_0003),
        ix: Some(0xF000_0003),
        phase: Step(1),
        cycles: 2,
        sums: START,
        ..one
    };
    assert_eq!(core, two);
    let (_, _, core) = core.run(&mut lent, 1);
    let three = Core {
        pc: 20,
        ir1: None,
        ir2: Some(0xF000_0004),
        ix: Some(0xF000_0004),
        cycles: 3,
        retired: 1,
        sums: sums([1, 2, 0]),
        ..two
    };
    assert_eq!(core, three);
    let (answer, used, core) = core.run(&mut lent, 5);
    assert_eq!(
        (answer, used, core.stop, core.pc, core.ix),
        (21, 1, 21, 24, None)
    );
}

#[test]
fn a_stop_on_the_boundary_needs_budget() {
    let mut lent = memory(16, &[SWI]);
    let (_, core) = Core::start([0; 15], 0, 0, &lent);
    let (answer, used, core) = core.run(&mut lent, 2);
    assert_eq!((answer, used, core.stop), (0, 2, 0));
    let (answer, used, core) = core.run(&mut lent, 0);
    assert_eq!((answer, used, core.stop), (0, 0, 0));
    let (answer, used, core) = core.run(&mut lent, 1);
    assert_eq!((answer, used, core.stop, core.cycles), (22, 0, 22, 2));
    let (answer, used, _) = core.run(&mut lent, 0);
    assert_eq!((answer, used), (22, 0));
}

#[test]
fn processing() {
    let (mut core, mut lent) = before(ops(ADD, 0, 1, number(3)), registers(&[(1, 4)]), 15);
    assert_eq!(cycles(&mut core, &mut lent), [(Step(1), 0, 0, 0)]);
    assert_eq!(
        (core.r[0], core.flags, core.retired, core.pc),
        (7, 0, 1, 20)
    );
}

#[test]
fn a_shift_by_register() {
    let r = registers(&[(1, 4), (2, 1)]);
    let (core, mut lent) = before(op(MOV, 0, 0, by_register(1, Shift::Lsl, 2)), r, 0);
    let (_, _, mut core) = core.run(&mut lent, 1);
    assert_eq!(
        (core.phase, core.r[0], core.pc, core.retired),
        (Step(2), 0, 20, 0)
    );
    assert_eq!(
        (core.ir1, core.ir2),
        (Some(at(&lent, 16)), Some(at(&lent, 12)))
    );
    assert_eq!(cycles(&mut core, &mut lent), [(Step(1), 0, 0, 0)]);
    assert_eq!(
        (core.r[0], core.pc, core.retired, core.ix),
        (8, 20, 1, Some(at(&lent, 12)))
    );
}

#[test]
fn a_stored_counter() {
    let (core, mut lent) = before(mov(15, plain(1)), registers(&[(1, 0xF000_0043)]), 6);
    let ix = core.ix;
    let (_, _, core) = core.run(&mut lent, 1);
    assert_eq!(
        (core.phase, core.pc, core.flags, core.retired),
        (Refill1, 0x40, 6, 0)
    );
    assert_eq!(
        (core.ir1, core.ir2, core.ix),
        (Some(at(&lent, 16)), Some(at(&lent, 12)), ix)
    );
    let (_, _, core) = core.run(&mut lent, 1);
    assert_eq!((core.phase, core.pc, core.retired), (Refill2, 0x44, 0));
    assert_eq!(
        (core.ir1, core.ir2, core.ix),
        (Some(at(&lent, 0x40)), Some(at(&lent, 16)), ix)
    );
    let (_, _, core) = core.run(&mut lent, 1);
    let (first, second) = (Some(at(&lent, 0x40)), Some(at(&lent, 0x44)));
    assert_eq!(
        (core.phase, core.pc, core.retired, core.cycles),
        (Step(1), 0x48, 1, 5)
    );
    assert_eq!((core.ir1, core.ir2, core.ix), (second, first, first));
}

/// Neither the last own step nor refill 1 adds to the sums.
#[test]
fn sums_of_a_stored_counter() {
    let r = registers(&[(1, 0x43), (2, 32)]);
    let words = [
        (mov(15, plain(1)), 3, [1, 2, 0]),
        (mov(15, by_register(1, Shift::Ror, 2)), 4, [1, 2, 1]),
        (branch_link(-3), 3, [1, 2, 0]),
        (ldr(15, 1, 0), 5, [2, 2, 1]),
        (block(LOAD | UP, 1, list(&[0, 4, 15])), 7, [2, 4, 1]),
    ];
    for (word, cycles, more) in words {
        let (mut core, mut lent) = before(word, r, 0);
        for _ in 1..cycles {
            (_, _, core) = core.run(&mut lent, 1);
            assert_eq!((core.sums, core.retired), (START, 0), "{word:08X}");
        }
        assert_eq!(core.phase, Refill2);
        (_, _, core) = core.run(&mut lent, 1);
        assert_eq!((core.sums, core.retired), (plus(START, sums(more)), 1));
    }
}

#[test]
fn a_branch_links_in_step_1() {
    let (core, mut lent) = before(branch_link(-3), [0; 15], 6);
    let (_, _, core) = core.run(&mut lent, 1);
    assert_eq!(
        (core.phase, core.pc, core.r[14], core.retired),
        (Refill1, 4, 0x6000_000C, 0)
    );
}

#[test]
fn a_load() {
    let r = registers(&[(1, 0x42)]);
    let (core, mut lent) = before(single(LOAD | UP | W | BEFORE, 0, 1, 3), r, 0);
    let value = at(&lent, 0x44).rotate_right(8);
    let (_, _, core) = core.run(&mut lent, 1);
    assert_eq!(
        (core.phase, core.address, core.data, core.base),
        (Step(2), 0x45, 0, 0x45)
    );
    assert_eq!(core.r, r);
    let (_, _, core) = core.run(&mut lent, 1);
    assert_eq!(
        (core.phase, core.address, core.data, core.base),
        (Step(3), 0, value, 0)
    );
    assert_eq!(core.r, registers(&[(1, 0x45)]));
    let (_, _, core) = core.run(&mut lent, 1);
    assert_eq!(
        (core.phase, core.address, core.data, core.base),
        (Step(1), 0, 0, 0)
    );
    assert_eq!(
        (core.r, core.retired),
        (registers(&[(0, value), (1, 0x45)]), 1)
    );
}

#[test]
fn a_load_without_a_changed_base() {
    let (mut core, mut lent) = before(
        single(LOAD | BYTE | BEFORE, 0, 1, 3),
        registers(&[(1, 0x44)]),
        0,
    );
    let value = at(&lent, 0x40) >> 8 & 0xFF;
    let seen = cycles(&mut core, &mut lent);
    assert_eq!(
        seen,
        [
            (Step(2), 0x41, 0, 0),
            (Step(3), 0, value, 0),
            (Step(1), 0, 0, 0)
        ]
    );
}

#[test]
fn a_loaded_base_shows_the_changed_one_in_between() {
    let (core, mut lent) = before(single(LOAD | UP, 1, 1, 8), registers(&[(1, 0x40)]), 0);
    let value = at(&lent, 0x40);
    let (_, _, core) = core.run(&mut lent, 2);
    assert_eq!((core.r[1], core.phase), (0x48, Step(3)));
    let (_, _, core) = core.run(&mut lent, 1);
    assert_eq!((core.r[1], core.phase), (value, Step(1)));
}

#[test]
fn a_load_of_the_counter() {
    let (mut core, mut lent) = before(single(LOAD | UP, 15, 1, 4), registers(&[(1, 0x10)]), 3);
    let target = at(&lent, 0x10);
    let seen = cycles(&mut core, &mut lent);
    let nothing = |phase| (phase, 0, 0, 0);
    let expected = [
        (Step(2), 0x10, 0, 0x14),
        (Step(3), 0, target, 0),
        nothing(Refill1),
        nothing(Refill2),
        nothing(Step(1)),
    ];
    assert_eq!(seen, expected);
    assert_eq!((core.pc, core.flags), ((target & 0x03FF_FFFC) + 8, 3));
}

#[test]
fn stores() {
    let r = registers(&[(0, 0x1234_5678), (1, 0x41)]);
    let (mut core, mut lent) = before(single(STORE | BYTE | UP, 0, 1, 7), r, 0);
    let seen = cycles(&mut core, &mut lent);
    assert_eq!(
        seen,
        [(Step(2), 0x41, 0x1234_5678, 0x48), (Step(1), 0, 0, 0)]
    );
    assert_eq!((lent[0x41], core.r[1]), (0x78, 0x48));
    let (mut core, mut lent) = before(single(STORE | BEFORE, 15, 1, 1), r, 9);
    let seen = cycles(&mut core, &mut lent);
    assert_eq!(seen, [(Step(2), 0x40, 0x9000_0014, 0), (Step(1), 0, 0, 0)]);
    assert_eq!(at(&lent, 0x40), 0x9000_0014);
}

#[test]
fn a_store_of_its_base() {
    let (mut core, mut lent) = before(single(STORE | UP | W, 1, 1, 4), registers(&[(1, 0x40)]), 0);
    let seen = cycles(&mut core, &mut lent);
    assert_eq!(seen, [(Step(2), 0x40, 0x40, 0x44), (Step(1), 0, 0, 0)]);
    assert_eq!((at(&lent, 0x40), core.r[1]), (0x40, 0x44));
}

#[test]
fn a_block_load() {
    let r = registers(&[(1, 0x42)]);
    let (mut core, mut lent) = before(block(LOAD | UP | BEFORE | W, 1, list(&[0, 1, 5])), r, 0);
    let words = [at(&lent, 0x44), at(&lent, 0x48), at(&lent, 0x4C)];
    let mut registers_then = Vec::new();
    let mut seen = Vec::new();
    for _ in 0..5 {
        let (_, _, next) = core.run(&mut lent, 1);
        core = next;
        seen.push((core.phase, core.address, core.data, core.base));
        registers_then.push((core.r[0], core.r[1], core.r[5]));
    }
    let expected = [
        (Step(2), 0x44, 0, 0x4E),
        (Step(3), 0x48, words[0], 0),
        (Step(4), 0x4C, words[1], 0),
        (Step(5), 0, words[2], 0),
        (Step(1), 0, 0, 0),
    ];
    assert_eq!(seen, expected);
    let expected = [
        (0, 0x42, 0),
        (0, 0x4E, 0),
        (words[0], 0x4E, 0),
        (words[0], words[1], 0),
        (words[0], words[1], words[2]),
    ];
    assert_eq!(registers_then, expected);
}

#[test]
fn a_block_load_of_one() {
    let (mut core, mut lent) = before(block(LOAD, 1, list(&[3])), registers(&[(1, 0x40)]), 0);
    let value = at(&lent, 0x40);
    let seen = cycles(&mut core, &mut lent);
    assert_eq!(
        seen,
        [
            (Step(2), 0x40, 0, 0),
            (Step(3), 0, value, 0),
            (Step(1), 0, 0, 0)
        ]
    );
    assert_eq!(core.r, registers(&[(1, 0x40), (3, value)]));
}

#[test]
fn a_block_store() {
    let r = registers(&[(0, 5), (1, 0x63), (4, 6)]);
    let (mut core, mut lent) = before(block(STORE | BEFORE | W, 1, list(&[0, 1, 4, 15])), r, 6);
    let seen = cycles(&mut core, &mut lent);
    let expected = [
        (Step(2), 0x50, 5, 0x53),
        (Step(3), 0x54, 0x53, 0),
        (Step(4), 0x58, 6, 0),
        (Step(5), 0x5C, 0x6000_0014, 0),
        (Step(1), 0, 0, 0),
    ];
    assert_eq!(seen, expected);
    let stored = [0x50, 0x54, 0x58, 0x5C].map(|address| at(&lent, address));
    assert_eq!(stored, [5, 0x53, 6, 0x6000_0014]);
    assert_eq!((core.r[1], core.retired, core.cycles), (0x53, 1, 7));
}

/// Every m at both ends, in every form: the whole record after each cycle.
#[test]
fn a_multiply() {
    for (m, rs) in (1..=16).flat_map(|m| ends(m).map(|rs| (m, rs))) {
        let (x, more, flags) = (0x8000_0003, 5, 0x7);
        let forms = [
            (mul(0, 1, 2), 0, false),
            (muls(0, 1, 2), 0, true),
            (mla(0, 1, 2, 3), more, false),
            (mlas(0, 1, 2, 3), more, true),
        ];
        for (word, more, sets) in forms {
            let r = registers(&[(0, 9), (1, x), (2, rs), (3, 5)]);
            let (core, mut lent) = before(word, r, flags);
            let (at_12, at_16) = (Some(at(&lent, 12)), Some(at(&lent, 16)));
            let mut now = core.clone();
            for step in 1..=m {
                (_, _, now) = now.run(&mut lent, 1);
                let waiting = Core {
                    pc: 20,
                    ir1: at_16,
                    ir2: at_12,
                    phase: Step(step + 1),
                    cycles: 2 + u64::from(step),
                    ..core.clone()
                };
                assert_eq!(now, waiting, "{word:08X} by {rs:X}");
            }
            (_, _, now) = now.run(&mut lent, 1);
            let result = (u64::from(x) * u64::from(rs) + more) as u32;
            let nz = match result {
                0 => 4,
                0x8000_0000.. => 8,
                _ => 0,
            };
            let done = Core {
                r: registers(&[(0, result), (1, x), (2, rs), (3, 5)]),
                pc: 20,
                flags: if sets { nz + 3 } else { flags },
                ir1: at_16,
                ir2: at_12,
                ix: at_12,
                cycles: 3 + u64::from(m),
                retired: 1,
                sums: plus(START, sums([0, 1, m.into()])),
                ..core
            };
            assert_eq!(now, done, "{word:08X} by {rs:X}");
        }
    }
}

/// Rd as Rs, as Rn and as both is written in the last cycle only, which the old Rs places.
#[test]
fn a_multiply_to_its_own_registers() {
    for (m, rs) in (1..=16).flat_map(|m| ends(m).map(|rs| (m, rs))) {
        let result = rs.wrapping_mul(0x1000_0000);
        let words = [
            (mul(2, 1, 2), result),
            (mla(2, 1, 2, 3), result.wrapping_add(7)),
            (mla(2, 1, 2, 2), result.wrapping_add(rs)),
        ];
        for (word, wanted) in words {
            let r = registers(&[(1, 0x1000_0000), (2, rs), (3, 7)]);
            let (mut core, mut lent) = before(word, r, 0);
            let (_, _, waited) = core.clone().run(&mut lent, m.into());
            assert_eq!((waited.r, waited.phase), (r, Step(m + 1)));
            assert_eq!(cycles(&mut core, &mut lent).len() as u32, m + 1);
            assert_eq!((core.r[2], core.r[3]), (wanted, 7));
        }
        let r = registers(&[(1, 3), (2, rs), (4, 11)]);
        let (mut core, mut lent) = before(mla(4, 1, 2, 4), r, 0);
        assert_eq!(cycles(&mut core, &mut lent).len() as u32, m + 1);
        assert_eq!(core.r[4], rs.wrapping_mul(3).wrapping_add(11));
    }
}

#[test]
fn a_multiply_on_a_failed_condition() {
    let r = registers(&[(1, 3), (2, u32::MAX)]);
    let (mut core, mut lent) = before(on(0, muls(0, 1, 2)), r, 0);
    assert_eq!(cycles(&mut core, &mut lent), [(Step(1), 0, 0, 0)]);
    assert_eq!((core.r, core.flags, core.retired), (r, 0, 1));
}

#[test]
fn a_failed_condition() {
    let (mut core, mut lent) = before(on(0, block(LOAD | UP, 1, 0xFFFF)), [0; 15], 0);
    assert_eq!(cycles(&mut core, &mut lent), [(Step(1), 0, 0, 0)]);
    assert_eq!((core.retired, core.r), (1, [0; 15]));
}

#[test]
fn unneeded_latches_are_cleared_by_the_next_cycle() {
    let (core, mut lent) = before(mov(0, number(1)), [0; 15], 0);
    let dirty = Core {
        address: 1,
        data: 2,
        base: 3,
        ..core.clone()
    };
    let (answer, _, same) = dirty.clone().run(&mut lent, 0);
    assert_eq!((answer, &same), (0, &dirty));
    let (_, _, after) = dirty.run(&mut lent, 1);
    let (_, _, clean) = core.run(&mut lent, 1);
    assert_eq!(after, clean);
}

/// In a multiply no step needs any of the three.
#[test]
fn latches_in_a_multiply() {
    let r = registers(&[(1, 3), (2, 0x55)]);
    let (core, mut lent) = before(mul(0, 1, 2), r, 0);
    for done in 0..5 {
        let (_, _, clean) = core.clone().run(&mut lent, done);
        let dirty = Core {
            address: 0xFFFF_FFFD,
            data: 2,
            base: 3,
            ..clean.clone()
        };
        let (answer, _, same) = dirty.clone().run(&mut lent, 0);
        assert_eq!((answer, &same), (0, &dirty));
        let (answer, _, after) = dirty.run(&mut lent, 1);
        let (_, _, clean) = clean.run(&mut lent, 1);
        assert_eq!((answer, after), (0, clean));
    }
}

#[test]
fn a_cycle_is_a_run_of_budget_1() {
    let (mut core, mut lent) = before(block(LOAD | UP | W, 1, 0b101), registers(&[(1, 64)]), 0);
    let mut same = lent.clone();
    for _ in 0..40 {
        let by_cycle = core.clone().cycle(&mut lent);
        let (_, _, by_run) = core.run(&mut same, 1);
        assert_eq!((&by_cycle, &lent), (&by_run, &same));
        if by_cycle.stop != 0 {
            assert_eq!(by_cycle.stop, 21);
            return;
        }
        core = by_run;
    }
    panic!("no stop");
}
