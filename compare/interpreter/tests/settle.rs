//! Settle against the readings: in each step of each class, in refills, at stops, at the last cycles,
//! and of records that were tampered with.

mod common;

use common::records::{any_core, bad_cores, good, sums_are_good};
use common::table::{added, added_by_class, plus, START};
use common::{memory, registers, slow};
use interpreter::arm::Shift;
use interpreter::assembler::*;
use interpreter::durations::ends;
use interpreter::pipeline::{Core, Phase};
use interpreter::random::Random;
use std::collections::BTreeSet;
use Phase::{Refill1, Refill2, Step};

const MOST: u64 = 1 << 40;

/// Where the word stands, where a stored counter goes, and where the sixteen words are that it may
/// load or store.
const ENTRY: u32 = 0x10;
const TARGET: u32 = 0x40;
const DATA: u32 = 0x80;

/// A fresh core of this word. What it may load sends the counter to the target.
fn fresh(word: u32, r: [u32; 15], flags: u32) -> (Core, Vec<u8>) {
    let mut words: Vec<u32> = (0..48).map(|index| 0xF000_0000 + index).collect();
    words[ENTRY as usize / 4] = word;
    for (index, word) in (0..).zip(&mut words[DATA as usize / 4..]) {
        *word = index << 28 | TARGET | index & 3;
    }
    let lent = memory(4 * words.len(), &words);
    let (answer, core) = Core::start(r, flags, ENTRY, &lent);
    assert_eq!(answer, 0);
    (core, lent)
}

/// The same after so many cycles.
fn after(word: u32, r: [u32; 15], flags: u32, cycles: u64) -> (Core, Vec<u8>) {
    let (core, mut lent) = fresh(word, r, flags);
    let (answer, used, core) = core.run(&mut lent, cycles);
    assert_eq!((answer, used), (0, cycles));
    (core, lent)
}

/// Settles a copy, holds it to the slow one and to a run of as many cycles, and settles it again, which
/// is refused where the sums have passed the cycles.
fn settled(core: &Core, lent: &[u8]) -> (u32, u64, Core, Vec<u8>) {
    let (mut memory, mut slowly) = (lent.to_vec(), lent.to_vec());
    let (answer, used, settled) = core.clone().settle(&mut memory);
    let expected = slow::settle(core, &mut slowly);
    assert_eq!(
        (answer, used, &settled),
        (expected.0, expected.1, &expected.2)
    );
    assert_eq!(memory, slowly);
    if answer == 0 {
        assert_eq!(settled.phase, Step(1));
        let mut at_once = lent.to_vec();
        let run = core.clone().run(&mut at_once, used);
        assert_eq!((run, at_once), ((0, used, settled.clone()), memory.clone()));
    } else {
        assert_eq!((used, &settled, &memory[..]), (0, core, lent));
    }
    let expected = if answer == 0 && !sums_are_good(&settled) {
        11
    } else {
        answer
    };
    let again = settled.clone().settle(&mut memory);
    assert_eq!(again, (expected, 0, settled.clone()));
    assert_eq!(memory, slowly);
    (answer, used, settled, memory)
}

/// The registers that the words below use; R1 has the data, R2 is an Rs of its own.
fn with_rs(rs: u32) -> [u32; 15] {
    registers(&[(0, TARGET), (1, DATA), (2, rs), (3, 0x8000_0003), (4, 32)])
}

/// A word of so many own steps, and then refills or none, before each of its cycles and after them.
fn in_each_step(word: u32, rs: u32, own: u32, refills: u32) {
    let total = own + refills;
    for done in 0..=total {
        let (core, lent) = after(word, with_rs(rs), 2, 2 + u64::from(done));
        let phase = if done == total {
            Step(1)
        } else if done < own {
            Step(done + 1)
        } else {
            [Refill1, Refill2][(done - own) as usize]
        };
        assert_eq!(core.phase, phase, "{word:08X} after {done}");
        // From own step k of s: s-k+1 and the refills, k being done+1; at a boundary none.
        let left = if phase == Step(1) { 0 } else { total - done };
        let (answer, used, settled, _) = settled(&core, &lent);
        assert_eq!((answer, used), (0, left.into()), "{word:08X} after {done}");
        assert_eq!(settled.retired, u64::from(done > 0));
        assert_eq!(settled.cycles, core.cycles + used);
        assert_eq!(settled.stop, 0);
        let whole = plus(START, added(word, 2, &with_rs(rs)));
        assert_eq!(settled.sums, if done > 0 { whole } else { START });
        let midway = done < total;
        assert_eq!(core.sums, if midway { START } else { whole });
    }
}

#[test]
fn processing() {
    let by_register = by_register(0, Shift::Ror, 4);
    in_each_step(ops(ADD, 5, 0, number(3)), 0, 1, 0);
    in_each_step(movs(5, by_amount(3, Shift::Ror, 0)), 0, 1, 0);
    in_each_step(ops(ADD, 5, 15, by_register), 0, 2, 0);
    in_each_step(ops(CMP, 5, 15, by_register), 0, 2, 0);
    in_each_step(mov(15, plain(0)), 0, 1, 2);
    in_each_step(movs(15, plain(0)), 0, 1, 2);
    in_each_step(op(MVN, 15, 0, number(0)), 0, 1, 2);
    in_each_step(mov(15, by_register), 0, 2, 2);
    in_each_step(ops(ORR, 15, 0, by_register), 0, 2, 2);
    // Compares leave the counter, also with Rd 15.
    for operation in TST..=CMN {
        in_each_step(ops(operation, 15, 3, number(1)), 0, 1, 0);
        in_each_step(ops(operation, 15, 3, by_register), 0, 2, 0);
    }
}

#[test]
fn singles() {
    for bits in [UP, BEFORE | UP, BEFORE | UP | W, UP | W] {
        for rd in [5, 1] {
            in_each_step(single(LOAD | bits, rd, 1, 4), 0, 3, 0);
            in_each_step(single(LOAD | BYTE | bits, rd, 1, 5), 0, 3, 0);
            in_each_step(single(STORE | bits, rd, 1, 4), 0, 2, 0);
            in_each_step(single(STORE | BYTE | bits, rd, 1, 5), 0, 2, 0);
        }
        in_each_step(single(LOAD | bits, 15, 1, 8), 0, 3, 2);
        in_each_step(single(STORE | bits, 15, 1, 8), 0, 2, 0);
    }
}

#[test]
fn blocks() {
    for n in 1..=16 {
        let first = (1 << n) - 1;
        // Upwards from R0 with the base among them, and downwards from R15.
        for list in [first, first << (16 - n)] {
            let refills = if list >> 15 == 1 { 2 } else { 0 };
            for w in [0, W] {
                in_each_step(block(LOAD | UP | w, 1, list), 0, n + 2, refills);
                in_each_step(block(STORE | UP | w, 1, list), 0, n + 1, 0);
            }
        }
    }
}

#[test]
fn branches() {
    in_each_step(branch_to(ENTRY, TARGET), 0, 1, 2);
    in_each_step(branch_to(ENTRY, TARGET) | 1 << 24, 0, 1, 2);
    in_each_step(branch(-1), 0, 1, 2);
    in_each_step(branch(-2), 0, 1, 2);
}

#[test]
fn multiplies() {
    for (m, rs) in (1..=16).flat_map(|m| ends(m).map(|rs| (m, rs))) {
        in_each_step(mul(5, 3, 2), rs, 1 + m, 0);
        in_each_step(mlas(5, 3, 2, 4), rs, 1 + m, 0);
        // The last step writes Rs, so that a look back would find another m.
        in_each_step(muls(2, 3, 2), rs, 1 + m, 0);
        in_each_step(on(2, mla(2, 3, 2, 2)), rs, 1 + m, 0);
    }
}

#[test]
fn failed_conditions() {
    let words = [
        mov(15, by_register(0, Shift::Ror, 4)),
        ldr(15, 1, 0),
        block(LOAD | UP, 1, 0xFFFF),
        branch(-2),
        mul(5, 3, 2),
        SWI,
    ];
    for word in words {
        in_each_step(on(0, word), u32::MAX, 1, 0);
        in_each_step(on(NEVER, word), u32::MAX, 1, 0);
    }
}

#[test]
fn a_start() {
    for word in [
        mov(5, number(1)),
        branch(-2),
        SWI,
        block(LOAD | UP, 1, 0xFFFF),
    ] {
        for done in 0..=2 {
            let (core, lent) = after(word, with_rs(0), 0, done);
            let (answer, used, settled, _) = settled(&core, &lent);
            assert_eq!((answer, used), (0, 2 - done));
            assert_eq!((settled.cycles, settled.retired, settled.stop), (2, 0, 0));
            assert_eq!(settled.sums, START);
            assert_eq!((settled.ix, settled.pc), (Some(word), ENTRY + 8));
        }
    }
}

#[test]
fn nothing_but_the_cycles_left() {
    // A run of nothing on either side changes nothing.
    let load = block(LOAD | UP | W, 1, 0x00F8);
    for done in 0..9 {
        let (core, lent) = after(load, with_rs(0), 0, done);
        let (_, used, boundary, memory) = settled(&core, &lent);
        let mut again = lent.clone();
        let (answer, none, core) = core.run(&mut again, 0);
        assert_eq!((answer, none), (0, 0));
        let (answer, same, core) = core.settle(&mut again);
        assert_eq!((answer, same, &core), (0, used, &boundary));
        assert_eq!(core.run(&mut again, 0), (0, 0, boundary));
        assert_eq!(again, memory);
    }
}

/// A word that meets this stop; there is none behind the last.
fn meets(stop: u32) -> u32 {
    match stop {
        22 => SWI,
        23 => block(LOAD | UP, 1, 0),
        24 => ldr(5, 3, 0),
        _ => str(5, 15, 0),
    }
}

#[test]
fn a_boundary_that_meets_a_stop() {
    // The word before the one that stops, and its cycles.
    let befores = [
        (on(NEVER, SWI), 1),
        (mov(5, by_register(0, Shift::Lsl, 4)), 2),
        (ldr(5, 1, 0), 3),
        (str(5, 1, 4), 2),
        (block(LOAD | UP | W, 1, 0x00F0), 6),
        (mul(5, 3, 2), 17),
        (branch(-1), 3),
    ];
    for stop in 21..=25 {
        for (word, cycles) in befores {
            for done in 0..=2 + cycles {
                let mut lent = memory(0x40, &[]);
                let entry = if stop == 21 { 0x3C } else { 0x20 };
                lent[entry..entry + 4].copy_from_slice(&word.to_le_bytes());
                if stop != 21 {
                    lent[entry + 4..entry + 8].copy_from_slice(&meets(stop).to_le_bytes());
                }
                let mut r = with_rs(u32::MAX);
                r[1] = 0x10;
                let (_, core) = Core::start(r, 0, entry as u32, &lent);
                let (answer, used, mut core) = core.run(&mut lent, done);
                assert_eq!((answer, used), (0, done));
                // Once for the start's refill, once for the word.
                for _ in 0..2 {
                    (_, _, core, lent) = settled(&core, &lent);
                    assert_eq!(core.stop, 0);
                    if core.retired == 0 {
                        core = core.run(&mut lent, 1).2;
                    }
                }
                assert_eq!((core.retired, core.cycles), (1, 2 + cycles));
                let (answer, used, same) = core.clone().run(&mut lent, 0);
                assert_eq!((answer, used, &same), (0, 0, &core));
                let (answer, used, held) = core.run(&mut lent, 1);
                assert_eq!((answer, used, held.stop), (stop, 0, stop));
                assert_eq!(settled(&held, &lent), (stop, 0, held, lent));
            }
        }
    }
}

#[test]
fn a_stop_at_the_first_boundary() {
    for stop in 22..=25 {
        for done in 0..=2 {
            let (core, lent) = after(meets(stop), with_rs(0), 0, done);
            let (answer, used, core, mut lent) = settled(&core, &lent);
            assert_eq!((answer, used, core.stop), (0, 2 - done, 0));
            let (answer, used, held) = core.run(&mut lent, 1);
            assert_eq!((answer, used), (stop, 0));
            assert_eq!(settled(&held, &lent), (stop, 0, held, lent));
        }
    }
}

#[test]
fn held_stops() {
    for stop in 21..=25 {
        for cycles in [10, MOST - 1, MOST] {
            let held = Core {
                stop,
                cycles,
                address: 1,
                data: 2,
                base: 3,
                ..good()
            };
            let lent = memory(64, &[]);
            assert_eq!(settled(&held, &lent), (stop, 0, held.clone(), lent));
            let other = settled(&held, &memory(68, &[]));
            assert_eq!((other.0, other.1), (12, 0));
        }
    }
}

/// A core in each kind of rest, with its memory and the cycles left.
fn rests() -> Vec<(Core, Vec<u8>, u64)> {
    let words = [
        (mov(5, by_register(0, Shift::Lsl, 4)), 2),
        (mov(15, plain(0)), 3),
        (mov(15, by_register(0, Shift::Ror, 4)), 4),
        (ldr(5, 1, 0), 3),
        (ldr(15, 1, 0), 5),
        (str(5, 1, 0), 2),
        (block(LOAD | UP, 1, 0x7FFF), 17),
        (block(LOAD | UP, 1, 0xFFFF), 20),
        (block(STORE | UP, 1, 0xFFFF), 17),
        (branch(-2), 3),
        (mla(5, 3, 2, 5), 17),
    ];
    let mut rests = Vec::new();
    for done in 0..=2 {
        let (core, lent) = after(SWI, with_rs(0), 0, done);
        rests.push((core, lent, 2 - done));
    }
    for (word, cycles) in words {
        for done in 1..=cycles {
            let (core, lent) = after(word, with_rs(u32::MAX), 0, 2 + done);
            rests.push((core, lent, cycles - done));
        }
    }
    rests
}

#[test]
fn the_last_cycles() {
    let mut lefts = BTreeSet::new();
    for (core, lent, left) in rests() {
        lefts.insert(left);
        let near = |cycles: u64| Core {
            cycles,
            ..core.clone()
        };
        for sum in [MOST - 1, MOST] {
            let (answer, used, after, _) = settled(&near(sum - left), &lent);
            assert_eq!((answer, used, after.cycles), (0, left, sum));
        }
        // A boundary past 2^40 would be a bad record.
        let past = if left == 0 { 11 } else { 13 };
        assert_eq!(settled(&near(MOST + 1 - left), &lent).0, past);
        let last = if left == 0 { 0 } else { 13 };
        assert_eq!(settled(&near(MOST), &lent).0, last);
        assert_eq!(settled(&near(MOST + 1), &lent).0, 11);
        // 12, then 11, then 13.
        let bad = Core {
            flags: 16,
            ..near(MOST)
        };
        assert_eq!(settled(&bad, &lent).0, 11);
        let longer = memory(lent.len() + 4, &[]);
        assert_eq!(settled(&bad, &longer).0, 12);
        assert_eq!(settled(&near(MOST), &longer).0, 12);
    }
    assert!((0..=19).all(|left| lefts.contains(&left)), "{lefts:?}");
}

#[test]
fn bad_records_and_other_memory() {
    for bad in bad_cores() {
        let length = bad.length as usize;
        assert_eq!(settled(&bad, &memory(length, &[])).0, 11);
        assert_eq!(settled(&bad, &memory(length + 4, &[])).0, 12);
    }
    assert_eq!(settled(&Core::zeroed(), &[]).0, 11);
    assert_eq!(settled(&Core::zeroed(), &[0; 16]).0, 12);
    for (core, lent, left) in rests() {
        for length in [
            0,
            16,
            lent.len() - 4,
            lent.len() - 1,
            lent.len() + 4,
            65_536,
        ] {
            assert_eq!(settled(&core, &memory(length, &[])).0, 12);
        }
        assert_eq!(settled(&core, &lent).1, left);
    }
}

/// In the middle of a multiply Rs is set to another value: the cycles left are those to its m.
#[test]
fn another_rs() {
    for word in [mla(5, 3, 2, 4), mla(2, 3, 2, 4)] {
        for (m, rs) in (1..=16).flat_map(|m| ends(m).map(|rs| (m, rs))) {
            for step in 2..=17 {
                let (mut core, lent) = after(word, with_rs(u32::MAX), 0, 1 + u64::from(step));
                assert_eq!(core.phase, Step(step));
                core.r[2] = rs;
                let (answer, used, ..) = settled(&core, &lent);
                if step > m + 1 {
                    assert_eq!((answer, used), (11, 0));
                } else {
                    assert_eq!((answer, used), (0, (m + 2 - step).into()));
                }
            }
        }
    }
}

/// Another word or phase in the middle, and the cycles left that they give.
#[test]
fn another_word_or_phase() {
    let (core, lent) = after(block(LOAD | UP, 1, 0x8007), with_rs(0x20), 0, 4);
    assert_eq!((core.phase, slow::left(&core)), (Step(3), 6));
    let words = [
        (block(LOAD | UP, 1, 0x8001), 4),
        (block(LOAD | UP, 1, 0x0001), 1),
        (block(STORE | UP, 1, 0x8003), 2),
        (ldr(5, 1, 0), 1),
        (ldr(15, 1, 0), 3),
        (mul(5, 3, 2), 3),
    ];
    for (word, left) in words {
        let core = Core {
            ix: Some(word),
            ..core.clone()
        };
        let (answer, used, ..) = settled(&core, &lent);
        assert_eq!((answer, used), (0, left), "{word:08X}");
    }
    for word in [
        str(5, 1, 0),
        block(STORE | UP, 1, 1),
        mov(15, plain(0)),
        branch(-2),
        SWI,
    ] {
        let core = Core {
            ix: Some(word),
            ..core.clone()
        };
        assert_eq!(settled(&core, &lent).0, 11, "{word:08X}");
    }
    let phases = [
        (Step(1), 0),
        (Refill1, 2),
        (Refill2, 1),
        (Step(2), 7),
        (Step(4), 5),
        (Step(6), 3),
    ];
    for (phase, left) in phases {
        let core = Core {
            phase,
            ..core.clone()
        };
        let (answer, used, ..) = settled(&core, &lent);
        assert_eq!((answer, used), (0, left), "{phase:?}");
    }
    let core = Core {
        phase: Step(7),
        ..core
    };
    assert_eq!(settled(&core, &lent).0, 11);
}

/// A word that can store the counter retires, whether its condition passes now or not; no word is a
/// start's, and other words aren't taken.
#[test]
fn refills_of_any_word() {
    let cases = [
        (None, 0),
        (Some(branch(-2)), 0),
        (Some(on(0, block(LOAD | UP, 1, 0xFFFF))), 0),
        (Some(mov(15, by_register(1, Shift::Lsl, 2))), 0),
        (Some(SWI), 11),
        (Some(mov(5, number(1))), 11),
        (Some(on(NEVER, branch(-2))), 11),
    ];
    for (ix, wanted) in cases {
        for (phase, left) in [(Refill1, 2), (Refill2, 1)] {
            let core = Core {
                phase,
                ix,
                cycles: 40,
                ..good()
            };
            let lent = memory(64, &[]);
            let (answer, used, after, _) = settled(&core, &lent);
            assert_eq!(answer, wanted);
            if answer == 0 {
                assert_eq!(used, left);
                assert_eq!(after.retired, core.retired + u64::from(ix.is_some()));
                let more = ix.map_or(START, |word| added_by_class(word, &core.r));
                assert_eq!(after.sums, plus(core.sums, more));
            }
        }
    }
}

/// However a record came about, near 2^40 cycles as well.
#[test]
fn any_records() {
    let mut random = Random::new(8);
    let mut answers = [0; 32];
    let mut lefts = [0; 20];
    for _ in 0..60_000 {
        let mut core = any_core(&mut random);
        if random.chance(1, 2) {
            core.cycles = MOST - u64::from(random.below(8));
        }
        let image: Vec<u32> = (0..16)
            .map(|_| interpreter::programs::instruction(&mut random))
            .collect();
        let length = if random.chance(1, 40) { 68 } else { 64 };
        let (answer, used, ..) = settled(&core, &memory(length, &image));
        answers[answer as usize] += 1;
        if answer == 0 {
            lefts[used as usize] += 1;
        }
    }
    println!("{answers:?} {lefts:?}");
    assert!([0, 11, 12, 13].iter().all(|&answer| answers[answer] > 500));
    assert!(answers[21..=25].iter().all(|&count| count > 0));
    assert!(lefts[..=16].iter().all(|&count| count > 10), "{lefts:?}");
}
