//! The rate: the fold into a summary and the backlog, against slow descriptions and on small lists.

mod common;

use interpreter::answers::*;
use interpreter::assembler::*;
use interpreter::pipeline::Core;
use interpreter::plain::Plain;
use interpreter::programs::{self, Program};
use interpreter::random::Random;
use interpreter::rate::backlog::{Backlog, Overflow, Verdict};
use interpreter::rate::line::rate;
use interpreter::rate::summary::{Gaps, Moments, Summary};
use interpreter::rate::window::Window;
use interpreter::stores::{of_plain, Store};

// ---- the fold

fn store(cycle: u64, tick: u64, bytes: u32) -> Store {
    Store {
        cycle,
        tick,
        address: 0x100,
        bytes,
    }
}

fn folded(stores: &[Store]) -> Summary {
    let mut summary = Summary::default();
    for store in stores {
        summary.fold(store);
    }
    summary
}

fn moments(first: u64, last: u64, least: u64, greatest: u64) -> Moments {
    Moments {
        first,
        last,
        gaps: Gaps { least, greatest },
    }
}

#[test]
fn one_by_one() {
    assert_eq!(folded(&[]), Summary::default());
    let list = [
        store(5, 8, 1),
        store(9, 20, 4),
        store(10, 21, 4),
        store(30, 41, 1),
    ];
    let wanted = [
        (1, 8, moments(5, 5, 0, 0), moments(8, 8, 0, 0)),
        (2, 40, moments(5, 9, 4, 4), moments(8, 20, 12, 12)),
        (3, 72, moments(5, 10, 1, 4), moments(8, 21, 1, 12)),
        (4, 80, moments(5, 30, 1, 20), moments(8, 41, 1, 20)),
    ];
    for (stores, bits, cycles, ticks) in wanted {
        let summary = Summary {
            stores,
            bits,
            first_bits: 8,
            cycles,
            ticks,
        };
        assert_eq!(folded(&list[..stores as usize]), summary);
    }
}

/// What a caller may have put into the array: it is taken as it is, but for an empty one.
#[test]
fn any_summary() {
    let rubbish = Summary {
        stores: 0,
        bits: 9,
        first_bits: 9,
        cycles: moments(9, 9, 9, 9),
        ticks: moments(9, 9, 9, 9),
    };
    let mut summary = rubbish;
    summary.fold(&store(5, 8, 4));
    assert_eq!(summary, folded(&[store(5, 8, 4)]));
    // No gap yet with one store, whatever stands there; a count that went back is a gap of 0.
    for (stores, least, greatest) in [(1, 4, 4), (2, 4, 9), (u64::MAX, 4, 9)] {
        let mut summary = Summary { stores, ..rubbish };
        summary.fold(&store(13, 2, 4));
        assert_eq!(summary.cycles, moments(9, 13, least, greatest));
        assert_eq!(
            summary.ticks,
            moments(9, 2, 0, if stores == 1 { 0 } else { 9 })
        );
        assert_eq!(summary.stores, stores.saturating_add(1));
    }
    for (bits, after) in [
        (u64::MAX - 32, u64::MAX),
        (u64::MAX - 31, u64::MAX),
        (7, 39),
    ] {
        let mut summary = Summary {
            stores: 1,
            bits,
            ..rubbish
        };
        summary.fold(&store(13, 20, 4));
        assert_eq!((summary.bits, summary.first_bits), (after, 9));
    }
}

#[test]
fn its_array() {
    let array = std::array::from_fn(|at| 0x0101_0101 * at as u32 + 1);
    let summary = Summary::of(&array);
    assert_eq!(summary.array(), array);
    let long = |at: usize| u64::from(array[at]) | u64::from(array[at + 1]) << 32;
    assert_eq!(
        (summary.stores, summary.bits, summary.first_bits),
        (long(0), long(2), long(4))
    );
    assert_eq!(
        summary.cycles,
        moments(long(6), long(8), long(10), long(12))
    );
    assert_eq!(
        summary.ticks,
        moments(long(14), long(16), long(18), long(20))
    );
}

// ---- runs

fn image(random: &mut Random) -> Program {
    let words = random.pick(&[8, 32, 64, 128]);
    if random.chance(1, 4) {
        programs::program(random, words)
    } else {
        programs::lively(random, words, 300)
    }
}

/// By runs split at random, and by the plain machine's list: the same summary, core and memory.
#[test]
fn runs_split_at_random() {
    let mut random = Random::new(191);
    let mut stores = 0;
    for _ in 0..3000 {
        let program = image(&mut random);
        let length = 4 * program.words.len() as u32;
        let from = 4 * random.below(length / 4);
        let to = from + 4 + 4 * random.below((length - from) / 4);
        let window = Window::new(from, to, length.into()).expect("a window");
        let mut lent = program.memory();
        let (_, mut core) = Core::start(program.r, program.flags, program.entry, &lent);
        let (mut summary, mut total) = (Summary::default(), 0);
        for _ in 0..random.below(30) {
            let budget = random.pick(&[0, 1, 1, 2, 3, 7, 20, 100]);
            let mut unwatched = lent.clone();
            let wanted = core.clone().run(&mut unwatched, budget);
            let came = core.rate_run(&mut lent, budget, [from, to], &mut summary);
            assert_eq!((&came, &lent), (&wanted, &unwatched));
            total += came.1;
            core = came.2;
        }
        let mut memory = program.memory();
        let (_, mut plain) = Plain::start(program.r, program.flags, program.entry, &memory);
        let mut all = of_plain(&mut plain, &mut memory, total);
        all.retain(|store| window.holds(store.address));
        assert_eq!(summary, folded(&all));
        stores += summary.stores;
    }
    assert!(stores > 3000, "{stores}");
}

/// A block of five words across a window of three, and bytes at its edges.
#[test]
fn both_edges() {
    let byte = |offset| single(STORE | BYTE | BEFORE | UP, 1, 3, offset);
    let code = [
        block(STORE | UP, 2, 0x1F),
        byte(0),
        byte(1),
        byte(12),
        byte(13),
    ];
    let mut lent = common::memory(0x200, &code);
    let r = common::registers(&[(2, 0x100), (3, 0x103)]);
    let (_, core) = Core::start(r, 0, 0, &lent);
    let mut summary = Summary::default();
    let (answer, used, _) = core.rate_run(&mut lent, 16, [0x104, 0x110], &mut summary);
    assert_eq!((answer, used), (0, 16));
    // The block's words 2 to 4, in cycles 5 to 7 and ticks 8 to 10, then the bytes at 104 and 10F.
    let wanted = Summary {
        stores: 5,
        bits: 112,
        first_bits: 32,
        cycles: moments(5, 14, 1, 5),
        ticks: moments(8, 23, 1, 9),
    };
    assert_eq!(summary, wanted);
}

#[test]
fn what_a_run_refuses() {
    let (_, core) = Core::start([0; 15], 0, 0, &[0; 64]);
    let bad = Core {
        flags: 16,
        ..core.clone()
    };
    let full = Core {
        cycles: MOST_CYCLES,
        ..core.clone()
    };
    let stopped = Core {
        stop: 21,
        phase: interpreter::pipeline::Phase::Step(1),
        ..core.clone()
    };
    let answer = |core: &Core, lent: usize, budget, window| {
        let mut summary = folded(&[store(1, 2, 4)]);
        let (answer, used, after) =
            core.clone()
                .rate_run(&mut vec![0; lent], budget, window, &mut summary);
        assert_eq!(
            (used, &after, summary),
            (0, core, folded(&[store(1, 2, 4)]))
        );
        answer
    };
    for window in [
        [0, 0],
        [8, 4],
        [0, 68],
        [1, 4],
        [0, 3],
        [64, 64],
        [4, u32::MAX],
        [u32::MAX - 3, 0],
    ] {
        assert_eq!(answer(&bad, 60, 1_000_001, window), OTHER_MEMORY);
        assert_eq!(answer(&bad, 64, 1_000_001, window), BAD_RECORD);
        assert_eq!(answer(&full, 64, 1_000_001, window), BUDGET);
        assert_eq!(answer(&full, 64, 1, window), TOO_MANY_CYCLES);
        assert_eq!(answer(&core, 64, 1, window), BAD_WINDOW);
        assert_eq!(answer(&stopped, 64, 1, window), BAD_WINDOW);
    }
    for window in [[0, 64], [60, 64], [0, 4]] {
        assert_eq!(answer(&stopped, 64, 1, window), NO_WORD);
        assert_eq!(answer(&core, 64, 0, window), FINE);
    }
}

// ---- the backlog

/// As the buffer does it: drained, never below empty, then filled, then measured.
fn by_draining(list: &[(u64, u64)], option: u64, clock: u64, words: u64) -> Verdict {
    let (mut level, mut last) = (0i128, 0);
    let mut levels = Vec::new();
    for &(tick, bits) in list {
        let drained = i128::from(1000 * option) * i128::from(tick - last);
        level = (level - drained).max(0) + i128::from(clock * bits);
        last = tick;
        levels.push(level);
    }
    verdict(&levels, list, clock, words)
}

/// By every span of stores.
fn by_spans(list: &[(u64, u64)], option: u64, clock: u64, words: u64) -> Verdict {
    let level = |n: usize| {
        let of = |i: usize| {
            let bits: u64 = list[i..=n].iter().map(|it| it.1).sum();
            let ticks = list[n].0 - list[i].0;
            i128::from(clock * bits) - i128::from(1000 * option * ticks)
        };
        (0..=n).map(of).max().expect("a span")
    };
    let levels: Vec<i128> = (0..list.len()).map(level).collect();
    verdict(&levels, list, clock, words)
}

fn verdict(levels: &[i128], list: &[(u64, u64)], clock: u64, words: u64) -> Verdict {
    let greatest = |levels: &[i128]| levels.iter().copied().max().unwrap_or(0);
    let (first, rest) = levels.split_at(levels.len() / 2);
    let clock = i128::from(clock);
    let over = levels
        .iter()
        .position(|&it| it > 32 * i128::from(words) * clock);
    let backlog = greatest(levels);
    Verdict {
        backlog: (backlog / clock + i128::from(backlog % clock > 0)) as u64,
        grows: greatest(rest) > greatest(first),
        overflow: over.map(|at| Overflow {
            store: at as u64 + 1,
            tick: list[at].0,
        }),
    }
}

fn found(list: &[(u64, u64)], option: u64, clock: u64, words: u64) -> Verdict {
    let mut backlog = Backlog::new(option, clock, words, list.len() as u64);
    for &(tick, bits) in list {
        backlog.add(tick, bits);
    }
    backlog.verdict()
}

#[test]
fn against_the_buffer_and_all_spans() {
    let mut random = Random::new(192);
    let mut came = [0; 3];
    for _ in 0..20_000 {
        let (option, clock) = match random.below(3) {
            0 => (1 + u64::from(random.below(4)), 1000),
            1 => (1 + u64::from(random.below(2000)), 8_000_000),
            _ => (
                1 + random.draw() % 10_000_000,
                1 + random.draw() % 1_000_000_000,
            ),
        };
        // Gaps about what a word takes at the option, so that the levels go up and down.
        let word = 32 * clock / (1000 * option) + 2;
        let mut tick = random.draw() % 100_000;
        let mut list = Vec::new();
        for _ in 0..random.below(40) + 1 {
            tick += 1 + random.draw() % random.pick(&[1, 3, word, 2 * word, 9 * word]);
            list.push((tick, random.pick(&[8, 32, 32])));
        }
        let words = 1 + u64::from(random.below(8));
        let verdict = found(&list, option, clock, words);
        assert_eq!(verdict, by_draining(&list, option, clock, words));
        assert_eq!(verdict, by_spans(&list, option, clock, words));
        came[0] += u32::from(verdict.grows && verdict.fits());
        came[1] += u32::from(!verdict.grows && !verdict.fits());
        came[2] += u32::from(verdict.serves());
    }
    println!("{came:?}");
    assert!(came.iter().all(|&count| count > 1000), "{came:?}");
}

/// At 1 kb/s of 1000 ticks a second a bit goes with each tick.
#[test]
fn full_is_no_overflow() {
    let over = |store, tick| Some(Overflow { store, tick });
    for (list, words, backlog, overflow) in [
        (vec![(10, 32)], 1, 32, None),
        (vec![(10, 32), (42, 32)], 1, 32, None),
        (vec![(10, 32), (41, 32)], 1, 33, over(2, 41)),
        (vec![(10, 32), (41, 32)], 2, 33, None),
        (vec![(10, 32), (18, 8)], 1, 32, None),
        (vec![(10, 32), (17, 8)], 1, 33, over(2, 17)),
        (vec![(10, 8), (11, 8), (12, 8), (13, 8)], 1, 29, None),
        (
            vec![(10, 8), (11, 8), (12, 8), (13, 8), (14, 8)],
            1,
            36,
            over(5, 14),
        ),
        // The first overflow is told, and the run goes on.
        (
            vec![(10, 32), (40, 32), (41, 32), (900, 32)],
            1,
            65,
            over(2, 40),
        ),
        // Never below empty: the long pause saves up nothing.
        (vec![(10, 32), (5000, 32), (5001, 32)], 2, 63, None),
    ] {
        let verdict = found(&list, 1, 1000, words);
        assert_eq!(
            (verdict.backlog, verdict.overflow),
            (backlog, overflow),
            "{list:?}"
        );
    }
}

/// A third of a bit goes with each tick: 32 bits less one, two and three thirds, and 32 more.
#[test]
fn a_part_of_a_bit_counts_whole() {
    for (gap, backlog) in [
        (1, 64),
        (2, 64),
        (3, 63),
        (4, 63),
        (95, 33),
        (96, 32),
        (97, 32),
    ] {
        assert_eq!(
            found(&[(5, 32), (5 + gap, 32)], 1, 3000, 9).backlog,
            backlog
        );
    }
    // And may be what passes the buffer, or what grows.
    assert!(!found(&[(5, 32), (100, 32)], 1, 3000, 1).fits());
    assert!(found(&[(5, 32), (101, 32)], 1, 3000, 1).fits());
    assert!(found(&[(5, 32), (100, 32)], 1, 3000, 2).grows);
    assert!(!found(&[(5, 32), (101, 32)], 1, 3000, 2).grows);
}

/// The first n/2 rounded down against all others: of three stores the first against two.
#[test]
fn the_halves() {
    let grows = |list: &[(u64, u64)]| found(list, 1, 1000, 99).grows;
    let far = |tick: u64| (tick * 10_000, 32);
    let twice = |tick: u64| [far(tick), (tick * 10_000 + 1, 32)];
    assert!(grows(&[far(1), twice(2)[0], twice(2)[1]]));
    assert!(!grows(&[twice(1)[0], twice(1)[1], far(2), far(3)]));
    // Of three the second belongs to the rest; of five the third does.
    assert!(grows(&[twice(1)[0], twice(1)[1], far(2)]));
    assert!(grows(&[far(1), twice(2)[0], twice(2)[1], far(3), far(4)]));
    assert!(!grows(&[far(1), far(2), far(3), far(4)]));
    assert!(grows(&[(10_000, 8), far(2)]));
    assert!(!grows(&[far(1), (20_000, 8)]));
}

/// At their limits all products are exact.
#[test]
fn the_greatest_numbers() {
    let far = 1_500_000_000;
    let list = [(7, 32), (8, 32), (far, 32), (far + 1, 32)];
    for (option, clock, words) in [
        (10_000_000, 1_000_000_000, 1 << 20),
        (10_000_000, 1, 1),
        (1, 1_000_000_000, 1 << 20),
    ] {
        assert_eq!(
            found(&list, option, clock, words),
            by_draining(&list, option, clock, words)
        );
    }
    // A store a tick of a whole run at most, which nothing drains to speak of.
    let mut backlog = Backlog::new(1, 1_000_000_000, 1 << 20, 10_000_000);
    (1..=10_000_000).for_each(|tick| backlog.add(tick, 32));
    let verdict = backlog.verdict();
    // 32 bits a store less a bit in each million ticks.
    assert_eq!(verdict.backlog, 320_000_000 - 9);
    assert_eq!(verdict.overflow.map(|it| it.store), Some((1 << 20) + 1));
}

// ---- the rate that is told

#[test]
fn with_one_decimal_rounded_up() {
    let told = |bits, first_bits, ticks, clock| {
        let summary = Summary {
            stores: 2,
            bits,
            first_bits,
            cycles: moments(1, 2, 1, 1),
            ticks: moments(100, 100 + ticks, ticks, ticks),
        };
        rate(&summary, clock)
    };
    assert_eq!(told(64, 32, 32, 1000), "1.0");
    assert_eq!(told(64, 32, 31, 1000), "1.1");
    assert_eq!(told(64, 32, 33, 1000), "1.0");
    assert_eq!(told(40, 32, 80, 1000), "0.1");
    assert_eq!(told(40, 8, 320, 1000), "0.1");
    assert_eq!(told(40, 8, 319, 1000), "0.2");
    assert_eq!(told(64, 32, 1_000_000, 1), "0.1");
    assert_eq!(told(17 * 32 + 32, 32, 5040, 8_000_000), "863.5");
    assert_eq!(told(64, 32, 1, 1_000_000_000), "32000000.0");
}
