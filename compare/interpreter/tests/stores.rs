//! The stores of a run: both roads on random images, what the coming cycle stores, and directed
//! ones.

mod common;

use common::records::{any_core, bad_cores};
use common::{memory, registers};
use interpreter::assembler::*;
use interpreter::pipeline::{Core, Phase};
use interpreter::plain::Plain;
use interpreter::programs::{self, Program};
use interpreter::random::Random;
use interpreter::stores::{coming, of_pipeline, of_plain, watch, Store};
use Phase::Step;

/// The list of so many cycles, the same by both roads, which leave the same memory up to the last
/// store.
fn both(program: &Program, cycles: u64) -> Vec<Store> {
    let mut memory = program.memory();
    let (answer, core) = Core::start(program.r, program.flags, program.entry, &memory);
    assert_eq!(answer, 0);
    let (_, stores) = of_pipeline(&core, &mut memory, cycles);
    assert_eq!(by_the_plain_machine(program, cycles), stores);
    stores
}

fn by_the_plain_machine(program: &Program, cycles: u64) -> Vec<Store> {
    let mut memory = program.memory();
    let (_, mut plain) = Plain::start(program.r, program.flags, program.entry, &memory);
    of_plain(&mut plain, &mut memory, cycles)
}

fn image(random: &mut Random) -> Program {
    let words = random.pick(&[8, 16, 32, 64, 64, 128, 256]);
    match random.below(8) {
        0 => programs::program(random, words),
        1 => programs::noise(random, words),
        _ => programs::lively(random, words, 200),
    }
}

#[test]
fn both_roads_agree_on_random_images() {
    let mut random = Random::new(181);
    let (mut words, mut bytes, mut blocks) = (0, 0, 0);
    for _ in 0..6000 {
        let program = image(&mut random);
        let cycles = random.pick(&[1, 2, 3, 4, 5, 17, 40, 100, 400, 400, 400]);
        let stores = both(&program, cycles);
        words += stores.iter().filter(|it| it.bytes == 4).count();
        bytes += stores.iter().filter(|it| it.bytes == 1).count();
        let in_a_row = |pair: &&[Store]| pair[1].cycle == pair[0].cycle + 1;
        blocks += stores.windows(2).filter(in_a_row).count();
    }
    println!("{words} {bytes} {blocks}");
    assert!(words > 20_000 && bytes > 2000 && blocks > 10_000);
}

/// The list of fewer cycles is the beginning of the list of more: by every total of some images.
#[test]
fn a_shorter_run_has_the_first_of_them() {
    let mut random = Random::new(182);
    let mut cut_in_a_block = 0;
    for _ in 0..60 {
        let program = image(&mut random);
        let all = both(&program, 150);
        for cycles in 0..150 {
            let stores = both(&program, cycles);
            let wanted: Vec<Store> = all
                .iter()
                .copied()
                .filter(|it| it.cycle <= cycles)
                .collect();
            assert_eq!(stores, wanted);
            let next = all.get(stores.len()).map(|it| it.cycle);
            let last = stores.last().map(|it| it.cycle + 1);
            cut_in_a_block += u32::from(next.is_some() && next == last && last == Some(cycles + 1));
        }
    }
    assert!(cut_in_a_block > 50, "{cut_in_a_block}");
}

/// Cycle by cycle: what is told of the coming one is what it writes, all that changes in the memory
/// is told, and where a store retires its last write's tick is what the sums come to.
#[test]
fn each_cycle_does_what_was_told() {
    let mut random = Random::new(183);
    let mut retired = 0;
    for _ in 0..600 {
        let program = image(&mut random);
        let mut lent = program.memory();
        let (_, mut core) = Core::start(program.r, program.flags, program.entry, &lent);
        for _ in 0..300 {
            let (before, old) = (core.clone(), lent.clone());
            let mut seen = Vec::new();
            let came = watch(&mut core, &mut lent, 1, |store| seen.push(store));
            if came.stop != 0 {
                assert_eq!(
                    (came.used, coming(&before), coming(&core)),
                    (0, (0, 0), (0, 0))
                );
                break;
            }
            let told = seen.first().map_or((0, 0), |it| (it.address, it.bytes));
            assert_eq!(coming(&before), told);
            let changed = |at: &usize| lent[*at] != old[*at];
            let inside = |at: usize| {
                seen.iter()
                    .any(|it| (it.address..it.address + it.bytes).contains(&(at as u32)))
            };
            assert!((0..lent.len()).filter(changed).all(inside));
            if let (Some(store), Step(1)) = (seen.first(), core.phase) {
                assert_eq!(store.tick, core.sums.ticks());
                assert_eq!(store.cycle, core.cycles);
                retired += 1;
            }
        }
    }
    assert!(retired > 2000, "{retired}");
}

/// Of any record that a run takes.
#[test]
fn the_coming_cycle_of_any_core() {
    let mut random = Random::new(184);
    let (mut stored, mut nothing) = (0, 0);
    for _ in 0..300_000 {
        let core = any_core(&mut random);
        let mut lent = memory(64, &[]);
        lent.resize(core.length as usize % 70_000, 0);
        if core.clone().run(&mut lent, 0).0 != 0 {
            continue;
        }
        let told = coming(&core);
        let mut seen = (0, 0);
        watch(&mut core.clone(), &mut lent, 1, |store| {
            seen = (store.address, store.bytes);
        });
        assert_eq!(seen, told, "{core:?}");
        *(if told.1 == 0 {
            &mut nothing
        } else {
            &mut stored
        }) += 1;
    }
    println!("{stored} {nothing}");
    assert!(stored > 1000 && nothing > 10_000);
}

/// Of records that no run takes: by phase, IX and the latch alone.
#[test]
fn the_coming_cycle_of_bad_cores() {
    let held = |word, step| Core {
        ix: Some(word),
        phase: Step(step),
        address: 0x4000_0007,
        flags: 0,
        ..bad_cores()[0].clone()
    };
    let word = (0x4000_0004, 4);
    let by_step = |it, step| coming(&held(it, step));
    for step in [2, 3, 19, 1000, u32::MAX] {
        assert_eq!(by_step(str(1, 2, 0), step), word);
        assert_eq!(by_step(on(0, str(1, 2, 0)), step), word);
        assert_eq!(by_step(single(BYTE | UP, 1, 2, 0), step), (0x4000_0007, 1));
        assert_eq!(by_step(ldr(1, 2, 0), step), (0, 0));
        assert_eq!(by_step(SWI, step), (0, 0));
        assert_eq!(by_step(block(LOAD | UP, 2, 0xFFFF), step), (0, 0));
        assert_eq!(by_step(block(STORE | UP, 2, 0), step), (0, 0));
    }
    for n in 1..=16 {
        let store = block(STORE | UP | S_BIT, 15, 0xFFFF >> (16 - n));
        for step in 1..=20 {
            let wanted = if (2..=n + 1).contains(&step) {
                word
            } else {
                (0, 0)
            };
            assert_eq!(by_step(store, step), wanted, "{n} {step}");
        }
    }
    let mut held = held(str(1, 2, 0), 2);
    held.stop = 24;
    assert_eq!(coming(&held), (0, 0));
    held.stop = 0;
    for phase in [Step(0), Step(1), Phase::Refill1, Phase::Refill2] {
        held.phase = phase;
        assert_eq!(coming(&held), (0, 0));
    }
    held.phase = Step(2);
    held.ix = None;
    assert_eq!(coming(&held), (0, 0));
}

// Directed images, in a memory of 0x200 bytes that starts at 0.

const MANY: u64 = 400;

fn program(code: &[u32], values: &[(usize, u32)]) -> Program {
    let mut words = code.to_vec();
    words.resize(0x80, SWI);
    Program {
        words,
        r: registers(values),
        flags: 0,
        entry: 0,
    }
}

/// The stores as cycle, tick, address and bytes.
fn listed(code: &[u32], values: &[(usize, u32)]) -> Vec<(u64, u64, u32, u32)> {
    let stores = both(&program(code, values), MANY);
    let row = |it: &Store| (it.cycle, it.tick, it.address, it.bytes);
    stores.iter().map(row).collect()
}

#[test]
fn words_and_bytes() {
    // Start: 2 cycles of 3 ticks. Each store: 2 of 4, its write last.
    let byte = single(STORE | BYTE | BEFORE | UP, 1, 2, 3);
    assert_eq!(
        listed(&[str(1, 2, 0), byte, str(1, 2, 3), byte], &[(2, 0x100)]),
        [
            (4, 7, 0x100, 4),
            (6, 11, 0x103, 1),
            (8, 15, 0x100, 4),
            (10, 19, 0x103, 1)
        ]
    );
}

#[test]
fn the_same_value() {
    let code = [
        str(1, 2, 0),
        str(1, 2, 0),
        str(3, 2, 0),
        block(STORE | UP, 2, 2),
    ];
    let stores = listed(&code, &[(2, 0x100)]);
    let wanted = [4, 6, 8, 10].map(|cycle| (cycle, 2 * cycle - 1, 0x100, 4));
    assert_eq!(stores, wanted);
}

#[test]
fn blocks_go_up_by_words() {
    for (bits, first) in [(UP, 0x100), (UP | BEFORE, 0x104), (0, 0xF8), (BEFORE, 0xF4)] {
        for base in [0x100, 0x103] {
            let code = [
                mov(5, number(1)),
                block(STORE | bits | W, 2, 0b1110),
                mov(5, number(2)),
                str(5, 4, 0),
            ];
            let stores = listed(&code, &[(2, base), (4, 0x40)]);
            let wanted = [
                (5, 8, first, 4),
                (6, 9, first + 4, 4),
                (7, 10, first + 8, 4),
                (10, 15, 0x40, 4),
            ];
            assert_eq!(stores, wanted, "{bits:X} {base:X}");
        }
    }
}

#[test]
fn sixteen_words_with_the_base_and_r15_among_them() {
    let stores = listed(&[block(STORE | UP | W, 2, 0xFFFF)], &[(2, 0x100)]);
    let wanted: Vec<_> = (0..16)
        .map(|j| (4 + u64::from(j), 7 + u64::from(j), 0x100 + 4 * j, 4))
        .collect();
    assert_eq!(stores, wanted);
    let stores = listed(&[str(15, 2, 2), str(2, 2, 4)], &[(2, 0x100)]);
    assert_eq!(stores, [(4, 7, 0x100, 4), (6, 11, 0x104, 4)]);
}

#[test]
fn what_stores_nothing() {
    // A skipped one takes a cycle and a tick.
    let skipped = [
        on(0, str(1, 2, 0)),
        on(NEVER, block(STORE | UP, 2, 3)),
        str(1, 2, 0),
    ];
    assert_eq!(listed(&skipped, &[(2, 0x100)]), [(6, 9, 0x100, 4)]);
    // 24 at the end of the memory and past it, 25 on the words at A+4 and A+8; 24 also where a
    // block only ends outside, and none of its words is stored.
    for (word, base) in [
        (str(1, 2, 0), 0x200),
        (block(STORE | UP, 2, 3), 0x1FC),
        (block(STORE, 2, 3), 0),
        (str(1, 2, 0), 8),
        (single(STORE | BYTE | UP, 1, 2, 0), 15),
        (block(STORE | UP, 2, 0x1F), 0),
    ] {
        assert_eq!(
            listed(&[str(1, 3, 0), word], &[(2, base), (3, 0x80)]),
            [(4, 7, 0x80, 4)],
            "{word:X}"
        );
    }
    // Loads, and what is no transfer.
    let others = [
        ldr(1, 2, 0),
        block(LOAD | UP, 2, 3),
        mul(1, 3, 4),
        branch_link(-1),
    ];
    assert_eq!(listed(&others, &[(2, 0x100)]), []);
}

/// Between the ticks of two stores are those of all words between them, by the table.
#[test]
fn ticks_between_stores() {
    use interpreter::arm::Shift;
    let store = str(1, 2, 0);
    for (words, cycles, ticks) in [
        (vec![mov(5, number(1))], 1, 1),
        (vec![on(0, mul(5, 3, 4))], 1, 1),
        (vec![mov(5, by_register(3, Shift::Lsl, 4))], 2, 2),
        (vec![ldr(5, 2, 4)], 3, 4),
        (vec![block(LOAD | UP, 2, 0xF0)], 6, 7),
        (vec![branch(-1)], 3, 4),
        (vec![branch_link(-1)], 3, 4),
        (vec![mul(5, 3, 6)], 4, 4),
        (vec![op(ADD, 15, 15, number(0)), SWI], 3, 4),
        (
            vec![op(ADD, 15, 15, by_register(3, Shift::Lsl, 7)), SWI, SWI],
            4,
            5,
        ),
        (vec![ldr(15, 8, 0)], 5, 7),
        (vec![block(LOAD | UP, 8, 0x8001)], 6, 8),
        (vec![block(STORE | UP, 8, 0x0F)], 0, 0),
    ] {
        let mut code = vec![store];
        code.extend(&words);
        code.push(store);
        // R8 is where the address of the second store stands twice.
        let mut program = program(&code, &[(2, 0x100), (6, 9), (8, 0x180)]);
        program.words[0x180 / 4..][..2].fill(4 * (code.len() as u32 - 1));
        let stores = both(&program, MANY);
        let at = |index: usize| (stores[index].cycle, stores[index].tick);
        if ticks == 0 {
            // Four words, one a cycle, then the other store's two cycles.
            assert_eq!(at(4), (4 + 2 + 3, 7 + 4 + 3));
            assert_eq!(at(5), (4 + 5 + 2, 7 + 7 + 4));
        } else {
            assert_eq!(stores.len(), 2, "{words:X?}");
            assert_eq!(at(0), (4, 7));
            assert_eq!(at(1), (4 + cycles + 2, 7 + ticks + 4), "{words:X?}");
        }
    }
}
