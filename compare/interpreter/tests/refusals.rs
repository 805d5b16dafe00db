//! What start and run refuse, and in which order.

mod common;

use common::memory;
use common::records::{any_core, bad_cores, good, sums_are_good};
use interpreter::arm::{decode, Instruction, Shift};
use interpreter::assembler::*;
use interpreter::durations::ends;
use interpreter::pipeline::{Core, Phase};
use interpreter::plain::Plain;
use interpreter::random::Random;
use Phase::{Refill1, Refill2, Step};

#[test]
fn starts() {
    for length in [0, 4, 12, 15, 17, 18, 19, 65_540, 65_544, 100_000] {
        let lent = vec![0; length];
        assert_eq!(Plain::start([7; 15], 16, 1, &lent), (1, Plain::default()));
        assert_eq!(Core::start([7; 15], 16, 1, &lent), (1, Core::zeroed()));
    }
    for length in [16, 20, 65_536] {
        let lent = vec![0; length];
        for entry in [
            1,
            2,
            3,
            length as u32,
            length as u32 + 4,
            0x0400_0000,
            u32::MAX,
        ] {
            assert_eq!(
                Plain::start([7; 15], 16, entry, &lent),
                (2, Plain::default())
            );
            assert_eq!(Core::start([7; 15], 16, entry, &lent), (2, Core::zeroed()));
        }
        for flags in [16, 17, u32::MAX] {
            assert_eq!(
                Plain::start([7; 15], flags, 12, &lent),
                (4, Plain::default())
            );
            assert_eq!(Core::start([7; 15], flags, 12, &lent), (4, Core::zeroed()));
        }
        assert_eq!(Plain::start([7; 15], 15, length as u32 - 4, &lent).0, 0);
        assert_eq!(Core::start([7; 15], 15, length as u32 - 4, &lent).0, 0);
    }
}

fn plain_answer(plain: Plain, lent: usize, count: u64) -> u32 {
    let mut lent = vec![0xEF; lent];
    let before = lent.clone();
    let mut after = plain.clone();
    let (answer, done) = after.run(&mut lent, count);
    if answer < 21 && answer != 0 {
        assert_eq!((after, done), (plain, 0));
        assert_eq!(lent, before);
    }
    answer
}

#[test]
fn plain_runs() {
    let good = Plain {
        a: 4,
        flags: 3,
        length: 64,
        ..Plain::default()
    };
    assert_eq!(plain_answer(good.clone(), 64, 0), 0);
    assert_eq!(plain_answer(good.clone(), 60, 0), 12);
    assert_eq!(plain_answer(good.clone(), 68, 2_000_000), 12);
    let bad = [
        Plain {
            length: 0,
            ..good.clone()
        },
        Plain {
            length: 12,
            ..good.clone()
        },
        Plain {
            length: 18,
            ..good.clone()
        },
        Plain {
            length: 65_540,
            ..good.clone()
        },
        Plain {
            a: 1,
            ..good.clone()
        },
        Plain {
            a: 2,
            ..good.clone()
        },
        Plain {
            a: 0x0400_0000,
            ..good.clone()
        },
        Plain {
            flags: 16,
            ..good.clone()
        },
        Plain {
            stop: 1,
            ..good.clone()
        },
        Plain {
            stop: 20,
            ..good.clone()
        },
        Plain {
            stop: 26,
            ..good.clone()
        },
    ];
    for bad in bad {
        let length = bad.length as usize;
        assert_eq!(plain_answer(bad.clone(), length, 0), 11);
        assert_eq!(plain_answer(bad.clone(), length, 1_000_001), 11);
        assert_eq!(plain_answer(bad, length + 4, 0), 12);
    }
    assert_eq!(plain_answer(good.clone(), 64, 1_000_001), 3);
    assert_eq!(plain_answer(good.clone(), 64, u64::MAX), 3);
    for stop in 21..=25 {
        let held = Plain {
            stop,
            ..good.clone()
        };
        assert_eq!(plain_answer(held.clone(), 64, 0), stop);
        assert_eq!(plain_answer(held.clone(), 64, 1_000_000), stop);
        assert_eq!(plain_answer(held.clone(), 64, 1_000_001), 3);
        assert_eq!(plain_answer(held, 60, 0), 12);
    }
    let far = Plain {
        a: 0x03FF_FFFC,
        ..good
    };
    assert_eq!(plain_answer(far.clone(), 64, 0), 0);
    assert_eq!(plain_answer(far, 64, 1), 21);
}

fn core_answer(core: &Core, lent: usize, budget: u64) -> u32 {
    let mut lent = memory(lent, &[]);
    let before = lent.clone();
    let (answer, used, after) = core.clone().run(&mut lent, budget);
    assert!(used <= budget);
    if answer < 21 && answer != 0 || core.stop != 0 || budget == 0 {
        assert_eq!((after, used), (core.clone(), 0));
        assert_eq!(lent, before);
    }
    answer
}

#[test]
fn core_runs() {
    let core = good();
    assert_eq!(core_answer(&core, 64, 3), 0);
    assert_eq!(core_answer(&core, 60, 3), 12);
    for bad in bad_cores() {
        let length = bad.length as usize;
        assert_eq!(core_answer(&bad, length, 0), 11);
        assert_eq!(core_answer(&bad, length, u64::MAX), 11);
        assert_eq!(core_answer(&bad, length + 4, 0), 12);
    }
    assert_eq!(core_answer(&core, 64, 1_000_001), 3);
    assert_eq!(core_answer(&core, 64, u64::MAX), 3);
    let old = Core {
        cycles: 1 << 40,
        ..core.clone()
    };
    assert_eq!(core_answer(&old, 64, 0), 0);
    assert_eq!(core_answer(&old, 64, 1), 13);
    assert_eq!(core_answer(&old, 64, 1_000_001), 3);
    let older = Core {
        cycles: (1 << 40) - 5,
        ..core.clone()
    };
    assert_eq!(core_answer(&older, 64, 5), 0);
    assert_eq!(core_answer(&older, 64, 6), 13);
    for stop in 21..=25 {
        let held = Core {
            stop,
            ..core.clone()
        };
        assert_eq!(core_answer(&held, 64, 0), stop);
        assert_eq!(core_answer(&held, 64, 1_000_000), stop);
        assert_eq!(core_answer(&held, 64, 1_000_001), 3);
        let held = Core {
            stop,
            cycles: 1 << 40,
            ..core.clone()
        };
        assert_eq!(core_answer(&held, 64, 0), stop);
        assert_eq!(core_answer(&held, 64, 1), 13);
    }
    assert_eq!(
        core_answer(
            &Core {
                ix: None,
                ..core.clone()
            },
            64,
            1
        ),
        21
    );
    assert_eq!(
        core_answer(
            &Core {
                ix: None,
                phase: Refill2,
                ..core
            },
            64,
            1
        ),
        0
    );
}

/// The steps that a word may be in, of 0 to 20.
fn steps_of(word: u32, address: u32, flags: u32) -> Vec<u32> {
    let core = |step| Core {
        phase: Step(step),
        ix: Some(word),
        address,
        flags,
        ..good()
    };
    (0..=20)
        .filter(|&step| core_answer(&core(step), 64, 0) == 0)
        .collect()
}

#[test]
fn steps_by_class() {
    let some = |range: std::ops::RangeInclusive<u32>| range.collect::<Vec<u32>>();
    let cases = [
        (mov(0, number(1)), 1),
        (mov(0, by_amount(1, Shift::Lsl, 3)), 1),
        (mov(0, by_register(1, Shift::Lsl, 3)), 2),
        (mov(15, by_register(15, Shift::Lsl, 3)), 2),
        (ops(TST, 0, 0, by_register(1, Shift::Lsl, 3)), 2),
        (on(0, mov(0, by_register(1, Shift::Lsl, 3))), 1),
        (on(NEVER, mov(0, by_register(1, Shift::Lsl, 3))), 1),
        (ldr(0, 1, 0), 3),
        (ldr(15, 15, 0), 3),
        (str(0, 1, 0), 2),
        (str(15, 1, 0), 2),
        (on(0, ldr(0, 1, 0)), 1),
        (block(LOAD, 1, list(&[4])), 3),
        (block(LOAD, 1, list(&[4, 15])), 4),
        (block(LOAD, 1, 0xFFFF), 18),
        (block(STORE, 1, list(&[4])), 2),
        (block(STORE, 1, 0xFFFF), 17),
        (on(0, block(STORE, 1, 0xFFFF)), 1),
        (branch(0), 1),
        (branch_link(0), 1),
        // Rs holds 0.
        (mul(0, 1, 2), 2),
        (muls(0, 1, 0), 2),
        (mlas(0, 1, 2, 0), 2),
        (on(0, mul(0, 1, 2)), 1),
        (on(NEVER, mla(0, 1, 2, 3)), 1),
        // Step 1 finds these stops itself.
        (SWI, 1),
        (SWP, 1),
        (0xE080_0291, 1),
        (0xE000_02B1, 1),
        (mul(1, 1, 2), 1),
        (mlas(1, 1, 2, 3), 1),
        (mul(15, 1, 2), 1),
        (mul(1, 15, 2), 1),
        (mul(1, 2, 15), 1),
        (multiply(0, 1, 2, 3, 15), 1),
        (mla(1, 2, 3, 15), 1),
        (mov(0, by_register(1, Shift::Lsl, 15)), 1),
        (op(TST, 0, 0, by_register(1, Shift::Lsl, 3)), 1),
        (single(LOAD | UP, 0, 15, 0), 1),
        (single(LOAD | BEFORE | W, 0, 15, 0), 1),
        (single_by(LOAD | UP, 0, 1, plain(15)), 1),
        (single(LOAD | BYTE, 15, 1, 0), 1),
        (single(STORE | BYTE, 15, 1, 0), 1),
        (block(LOAD, 15, 1), 1),
        (block(LOAD | S_BIT, 1, 1), 1),
        (block(LOAD, 1, 0), 1),
    ];
    for (word, most) in cases {
        assert_eq!(steps_of(word, 0, 3), some(1..=most), "{word:08X}");
    }
}

/// A multiply lacks the steps above 1+m by what Rs holds now, whatever else the record holds.
#[test]
fn steps_of_a_multiply() {
    let forms = [
        mul(0, 1, 3),
        muls(3, 1, 3),
        mla(2, 1, 3, 4),
        mlas(3, 4, 3, 3),
        mul(1, 3, 3),
        on(3, mla(0, 3, 3, 3)),
    ];
    for (m, rs) in (1..=16).flat_map(|m| ends(m).map(|rs| (m, rs))) {
        for word in forms {
            let answer = |step: u32| {
                let mut core = Core {
                    phase: Step(step),
                    ix: Some(word),
                    // Nothing is to be moved.
                    address: 0xFFFF_FFFC,
                    flags: 0x5,
                    ..good()
                };
                core.r[3] = rs;
                core_answer(&core, 64, 0)
            };
            for step in 1..=m + 1 {
                assert_eq!(answer(step), 0, "{word:08X} by {rs:X}, step {step}");
            }
            for step in m + 2..=20 {
                assert_eq!(answer(step), 11, "{word:08X} by {rs:X}, step {step}");
            }
            for step in [0, 1 << 16, u32::MAX - 1, u32::MAX] {
                assert_eq!(answer(step), 11, "{word:08X} by {rs:X}, step {step}");
            }
        }
    }
}

/// In the middle of a multiply Rs is set to another value: it ends by that one, and computes with
/// it, where it still has the step.
#[test]
fn another_rs_in_the_middle() {
    for word in [mla(0, 1, 3, 4), mla(3, 1, 3, 4)] {
        let rd = (word >> 16 & 15) as usize;
        for (m, rs) in (1..=16).flat_map(|m| ends(m).map(|rs| (m, rs))) {
            for step in 2..=17 {
                let mut core = Core {
                    phase: Step(step),
                    ix: Some(word),
                    ..good()
                };
                (core.r[1], core.r[3], core.r[4]) = (5, rs, 6);
                let mut lent = memory(64, &[]);
                let left = u64::from((m + 2).saturating_sub(step));
                let (answer, used, after) = core.clone().run(&mut lent, left);
                if left == 0 {
                    assert_eq!((answer, used, after), (11, 0, core));
                    continue;
                }
                assert_eq!((answer, used, after.phase), (0, left, Step(1)));
                assert_eq!(after.r[rd], rs.wrapping_mul(5).wrapping_add(6));
                assert_eq!((after.retired, after.ix), (5, core.ir2));
                let (_, _, before) = core.clone().run(&mut lent, left - 1);
                assert_eq!((before.r, before.phase), (core.r, Step(m + 1)));
            }
        }
    }
}

#[test]
fn no_stop_is_held_in_a_later_step() {
    let words = [
        (mov(0, by_register(1, Shift::Lsl, 3)), 2),
        (ldr(0, 1, 0), 3),
        (block(STORE, 1, list(&[4, 5])), 3),
        (mul(0, 1, 2), 2),
    ];
    for (word, step) in words {
        let core = Core {
            phase: Step(step),
            ix: Some(word),
            ..good()
        };
        assert_eq!(core_answer(&core, 64, 0), 0);
        for stop in 21..=25 {
            let held = Core {
                stop,
                ..core.clone()
            };
            assert_eq!(core_answer(&held, 64, 0), 11);
        }
    }
}

#[test]
fn words_still_to_be_moved() {
    for low in 0..4 {
        assert_eq!(steps_of(ldr(0, 1, 0), 60 + low, 3), [1, 2, 3]);
        assert_eq!(steps_of(ldr(0, 1, 0), 64 + low, 3), [1, 3]);
        assert_eq!(steps_of(ldr(0, 1, 0), 0xFFFF_FFFC + low, 3), [1, 3]);
        assert_eq!(steps_of(str(0, 1, 0), 60 + low, 3), [1, 2]);
        assert_eq!(steps_of(str(0, 1, 0), 64 + low, 3), [1]);
        // Three words to move in step 2, two in step 3, one in step 4.
        let load = block(LOAD, 1, list(&[1, 2, 3]));
        assert_eq!(steps_of(load, 52 + low, 3), [1, 2, 3, 4, 5]);
        assert_eq!(steps_of(load, 56 + low, 3), [1, 3, 4, 5]);
        assert_eq!(steps_of(load, 60 + low, 3), [1, 4, 5]);
        assert_eq!(steps_of(load, 64 + low, 3), [1, 5]);
        assert_eq!(steps_of(load, 0xFFFF_FFFC + low, 3), [1, 5]);
        let store = block(STORE, 1, list(&[1, 2, 3]));
        assert_eq!(steps_of(store, 52 + low, 3), [1, 2, 3, 4]);
        assert_eq!(steps_of(store, 56 + low, 3), [1, 3, 4]);
        assert_eq!(steps_of(store, 60 + low, 3), [1, 4]);
        assert_eq!(steps_of(store, 64 + low, 3), [1]);
    }
}

/// However a record came about: a refused run changes nothing, and an accepted one doesn't care
/// how its budget is split, and hands back a record that is good again, unless it stands where the
/// sums have passed the cycles.
#[test]
fn any_records() {
    let mut random = Random::new(7);
    let (mut refused, mut accepted, mut later, mut multiplies) = (0, 0, 0, 0);
    let (mut refills, mut passed_midway, mut passed) = (0, 0, 0);
    for _ in 0..60_000 {
        let core = any_core(&mut random);
        let image: Vec<u32> = (0..16)
            .map(|_| interpreter::programs::instruction(&mut random))
            .collect();
        let lent = memory(64, &image);
        let budget = u64::from(random.below(30));

        let mut whole = lent.clone();
        let (answer, used, after) = core.clone().run(&mut whole, budget);
        if (1..21).contains(&answer) {
            refused += 1;
            assert_eq!((used, &after, &whole), (0, &core, &lent));
            continue;
        }
        accepted += 1;
        if matches!(core.phase, Step(step) if step > 1) {
            later += 1;
            let instruction = core.ix.map(decode);
            multiplies += u64::from(matches!(instruction, Some(Instruction::Multiply(_))));
        }
        let in_refill = matches!(core.phase, Refill1 | Refill2);
        refills += u64::from(in_refill && core.ix.is_some());
        assert_eq!(after.cycles, core.cycles + used);
        assert_eq!(answer == 0, used == budget && after.stop == 0);

        let mut split = lent.clone();
        let first = u64::from(random.below(budget as u32 + 1));
        let (early, one, middle) = core.clone().run(&mut split, first);
        let midway = sums_are_good(&middle);
        let (late, two, end) = middle.run(&mut split, budget - first);
        if !midway {
            passed_midway += 1;
            assert_eq!((late, two), (11, 0));
            continue;
        }
        // A held stop is answered again; a stop found early leaves the rest unused.
        assert!(early == 0 || early == answer);
        assert_eq!(
            (late, one + two, &end, &split),
            (answer, used, &after, &whole)
        );
        let still_good = sums_are_good(&after);
        passed += u64::from(!still_good);
        let expected = if still_good { after.stop } else { 11 };
        let (again, none, same) = after.clone().run(&mut whole, 0);
        assert_eq!((again, none, &same), (expected, 0, &after));
    }
    println!("{refused} {accepted} {later} {multiplies} {refills} {passed_midway} {passed}");
    assert!(refused > 5000 && accepted > 5000 && later > 1000 && multiplies > 500);
    assert!(refills > 500 && passed_midway > 50 && passed > 50);
}
