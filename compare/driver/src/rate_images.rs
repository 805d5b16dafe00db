//! Runs that watch a window, of directed and of random images.

use crate::arguments::Asked;
use crate::comparison::{Checked, Compared, Comparison, Place};
use crate::counts::Rates;
use crate::odd::{self, Fields};
use crate::pair::{Machine, Pair};
use crate::rate_pair::RatePair;
use crate::rate_windows::{self as windows, Ends};
use crate::{images, random_images};
use interpreter::answers::BAD_WINDOW;
use interpreter::core_vectors;
use interpreter::pipeline::Core;
use interpreter::programs::Program;
use interpreter::random::Random;
use interpreter::vectors;

const MOST_BUDGET: u64 = 1_000_000;

// ---- directed

/// An image, and the bytes of its memory, which may be more or fewer than its words.
pub struct Directed {
    topic: String,
    program: Program,
    length: usize,
    /// How far each way to split it goes.
    most: u64,
}

/// The vectors of both machines, the timed images and a sender.
pub fn directed() -> Vec<Directed> {
    let plain = vectors::cases().into_iter().filter(|case| case.mode == 0);
    let plain = plain.map(|case| Directed {
        topic: case.topic,
        length: case.length as usize,
        program: Program {
            words: case.words,
            r: case.r,
            flags: case.flags,
            entry: case.entry,
        },
        most: 600,
    });
    let core = core_vectors::cases()
        .into_iter()
        .filter(|case| case.mode == 0);
    let core = core.map(|case| Directed {
        topic: case.topic,
        length: case.length as usize,
        program: Program {
            words: case.words,
            r: case.core[..15].try_into().expect("fifteen registers"),
            flags: case.core[16],
            entry: case.core[15],
        },
        most: 600,
    });
    let timed = images::NAMES
        .into_iter()
        .chain([images::SENDER])
        .map(|name| {
            let program = images::image(name).expect("a timed image");
            Directed {
                topic: name.to_string(),
                length: 4 * program.words.len(),
                program,
                most: 60_000,
            }
        });
    plain.chain(core).chain(timed).collect()
}

/// By single cycles, by small budgets and whole, each with windows of its own.
pub fn in_every_way(comparison: &mut Comparison, image: &Directed) {
    let place = Place::Within(format!("rates of '{}'", image.topic));
    let checked = by_all_splits(&mut comparison.counts.rates, image);
    comparison.check_call(checked, &place, &image.program);
}

fn by_all_splits(counts: &mut Rates, image: &Directed) -> Checked<()> {
    let mut random = Random::new(image.length as u64);
    let mut memory = image.program.memory();
    memory.resize(image.length, 0);
    for splits in [&[1][..], &[3, 1, 2], &[40, 1, 7], &[MOST_BUDGET]] {
        counts.images += 1;
        let Some(mut pair) = started(&image.program, &memory)? else {
            return Ok(());
        };
        let length = image.length as u32;
        let mut window = [0, length];
        let mut total = 0;
        for (call, &budget) in splits.iter().cycle().enumerate() {
            let told = asked(counts, &pair)?;
            if call % 64 == 63 {
                window = windows::drawn(&mut random, length, told.0);
            }
            let (answer, used) = run(counts, &mut pair, image.length, budget, window)?;
            total += used;
            if answer != 0 && answer != BAD_WINDOW || total >= image.most || call > 90_000 {
                break;
            }
        }
    }
    Ok(())
}

/// Nothing where the start is refused.
fn started(program: &Program, memory: &[u8]) -> Checked<Option<RatePair>> {
    let (answer, pair) = Pair::<Core>::start(program.r, program.flags, program.entry, memory)?;
    Ok((answer == 0).then(|| RatePair::new(pair)))
}

fn asked(counts: &mut Rates, pair: &RatePair) -> Checked<(u32, u32)> {
    let told = pair.store()?;
    counts.asks(told);
    Ok(told)
}

fn run(
    counts: &mut Rates,
    pair: &mut RatePair,
    lent: usize,
    budget: u64,
    window: Ends,
) -> Checked<(u32, u64)> {
    let before = pair.summary().stores;
    // The other way of the product's own takes a copy of the memory.
    counts.beside += 1;
    let (answer, used) = if lent <= 1024 || counts.beside & 15 == 0 {
        counts.both += 1;
        pair.run_beside(lent, budget, window)?
    } else {
        pair.run(lent, budget, window)?
    };
    counts.saw(
        answer,
        used,
        budget,
        pair.summary().stores.saturating_sub(before),
    );
    Ok((answer, used))
}

// ---- random

pub fn one(comparison: &mut Comparison, number: u64) {
    let mut random = Random::new(number);
    let program = random_images::draw(&mut random);
    let place = Place::Alone(Asked::Rates(number));
    let checked = random_image(&mut comparison.counts.rates, &program, &mut random);
    comparison.check_call(checked, &place, &program);
}

fn random_image(counts: &mut Rates, program: &Program, random: &mut Random) -> Checked<()> {
    let memory = program.memory();
    counts.images += 1;
    let Some(mut pair) = started(program, &memory)? else {
        return Ok(());
    };
    let (length, small) = (memory.len(), memory.len() <= 1024);
    let (style, calls) = match random.below(10) {
        0..=4 => (0, if small { 300 } else { 40 }),
        5..=7 => (1, if small { 100 } else { 30 }),
        8 => (2, 10),
        _ => (3, 30),
    };
    let end_at = if random.chance(1, 12) {
        random.below(calls)
    } else {
        u32::MAX
    };
    let mut window = windows::good(random, length as u32, 0);
    let (mut near, mut after_stop, mut moments) = (0, 0, 2);
    for call in 0..calls {
        between(counts, &mut pair, random)?;
        if moments > 0 && random.chance(6, calls + 6) && (small || random.chance(1, 8)) {
            moments -= 1;
            tamper(counts, &pair, random)?;
        }
        if call == end_at {
            Core::near_the_end(&mut pair.core, random);
        }
        let told = asked(counts, &pair)?;
        if told.1 > 0 {
            near = told.0;
        }
        if random.chance(1, 10) {
            window = windows::drawn(random, length as u32, near);
        }
        let (answer, _) = if style == 0 && random.chance(1, 3) {
            as_told(counts, &mut pair, told, random)?
        } else {
            let budget = match style {
                0 => 1,
                1 => u64::from(random.below(45)),
                2 => u64::from(random.below(20_000)),
                _ => random.pick(&[1, 1, 2, 3, 7, 50, 400, 999, 3000]),
            };
            run(counts, &mut pair, length, budget, window)?
        };
        after_stop += u32::from((11..=25).contains(&answer));
        if after_stop > 5 {
            break;
        }
    }
    Ok(())
}

/// The coming cycle with a window of the word that it is told to store to, or of all the memory:
/// what is told is what is folded.
fn as_told(
    counts: &mut Rates,
    pair: &mut RatePair,
    (address, bytes): (u32, u32),
    random: &mut Random,
) -> Checked<(u32, u64)> {
    let length = pair.core.length;
    let word = address & !3;
    let window = if bytes > 0 && random.chance(1, 2) {
        [word, word + 4]
    } else {
        [0, length as u32]
    };
    let kept = pair.clone();
    pair.set(&[0; 22]);
    let came = run(counts, pair, length, 1, window)?;
    let folded = (pair.summary().stores, pair.summary().bits);
    let told = if came.1 == 1 { bytes } else { 0 };
    assert_eq!(
        folded,
        (told.min(1).into(), u64::from(8 * told)),
        "what was told is folded"
    );
    counts.as_told += 1;
    pair.take_summary(&kept);
    Ok(came)
}

/// What the caller does between runs: settles, refused calls, bytes and summaries changed.
fn between(counts: &mut Rates, pair: &mut RatePair, random: &mut Random) -> Checked<()> {
    let length = pair.core.length;
    if random.chance(1, 20) {
        refused(counts, pair, random)?;
    }
    if random.chance(1, 40) {
        pair.core.settle(length)?;
    }
    if random.chance(1, 40) {
        let address = random.below(length as u32) as usize;
        let byte = pair.core.memory()[address] ^ 1 << random.below(8);
        pair.core.poke(address, byte);
    }
    if random.chance(1, 25) {
        counts.summaries += 1;
        pair.set(&windows::summary(random));
    }
    Ok(())
}

/// A call that is refused by its memory, its budget, its window, or several of them.
fn refused(counts: &mut Rates, pair: &mut RatePair, random: &mut Random) -> Checked<()> {
    let length = pair.core.length;
    let lent = match random.below(3) {
        0 => random.pick(&[
            0,
            1,
            4,
            16,
            length - 1,
            length - 4,
            length + 1,
            length + 4,
            length + 8,
        ]),
        _ => length,
    };
    let budget = match random.below(3) {
        0 => random.pick(&[
            MOST_BUDGET + 1,
            1 << 32,
            (1 << 32) + 5,
            1 << 40,
            1 << 63,
            u64::MAX,
        ]),
        _ => random.below(3).into(),
    };
    let window = if random.chance(3, 4) {
        windows::bad(random, length as u32)
    } else {
        windows::good(random, length as u32, 0)
    };
    run(counts, pair, lent, budget, window)?;
    Ok(())
}

/// Each field at odd values, then a few together, and those that go together, on copies.
fn tamper(counts: &mut Rates, pair: &RatePair, random: &mut Random) -> Checked<()> {
    let length = pair.core.length as u32;
    for field in 0..Core::NAMES.len() {
        let mut copy = pair.clone();
        let old = copy.core.product[field];
        copy.core.set(field, odd::value(random, old, length));
        run_tampered(counts, copy, random)?;
    }
    for _ in 0..16 {
        let mut copy = pair.clone();
        for _ in 0..random.below(6) + 2 {
            let field = random.pick(Core::TOGETHER);
            let value = odd::likely(random, field, &copy.core.product, length);
            copy.core.set(field, value);
        }
        run_tampered(counts, copy, random)?;
    }
    for set in Core::made_up(random, &pair.core.product) {
        let mut copy = pair.clone();
        copy.core.set_all(&set);
        run_tampered(counts, copy, random)?;
    }
    Ok(())
}

fn run_tampered(counts: &mut Rates, mut pair: RatePair, random: &mut Random) -> Checked<()> {
    let held = pair.core.product[Core::LENGTH] as usize;
    if held != pair.core.length && (16..=70_000).contains(&held) && random.chance(3, 4) {
        pair.core.resize(held);
    }
    let lent = if random.chance(1, 10) {
        random.below(pair.core.most() as u32 + 1) as usize
    } else {
        pair.core.length
    };
    if random.chance(1, 2) {
        pair.set(&windows::summary(random));
    }
    let budget = random.pick(&[0, 1, 1, 1, 2, 3, 5, 19, 20, 21, 40, MOST_BUDGET + 1]);
    counts.tampered += 1;
    let told = asked(counts, &pair)?;
    let window = windows::drawn(random, pair.core.length as u32 & !3, told.0);
    let (answer, _) = run(counts, &mut pair, lent, budget, window)?;
    counts.tampered_bad += u64::from(answer == 11);
    if answer == 0 {
        asked(counts, &pair)?;
        run(counts, &mut pair, lent, 1, window)?;
    }
    Ok(())
}
