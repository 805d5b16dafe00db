//! Random images, with settles, refused calls, changed bytes and tampered records between the runs.

use crate::arguments::Asked;
use crate::comparison::{Checked, Compared, Comparison, Place};
use crate::counts::Machines;
use crate::pair::Pair;
use crate::{dense, odd};
use interpreter::pipeline::Core;
use interpreter::plain::Plain;
use interpreter::programs::{self, Program};
use interpreter::random::Random;

// What must be reached before this part ends.
const LEAST_IMAGES: u64 = 40_000;
const LEAST_INSTRUCTIONS: u64 = 12_000_000;
const LEAST_SINGLE_CYCLES: u64 = 1_500_000;

pub fn all(comparison: &mut Comparison, first: u64) {
    comparison.begin("random images", LEAST_IMAGES, "images at least");
    let mut done = 0;
    while done < LEAST_IMAGES || !enough(comparison) {
        one(comparison, first.wrapping_add(done));
        done += 1;
        comparison.reached(done);
    }
}

fn enough(comparison: &Comparison) -> bool {
    let (core, plain) = (&comparison.counts.core, &comparison.counts.plain);
    core.instructions >= LEAST_INSTRUCTIONS
        && plain.instructions >= LEAST_INSTRUCTIONS
        && core.singles >= LEAST_SINGLE_CYCLES
}

pub fn one(comparison: &mut Comparison, number: u64) {
    let mut random = Random::new(number);
    let program = draw(&mut random);
    let place = Place::Alone(Asked::Image(number));
    let checked = random_image::<Core>(comparison, &program, &mut random);
    comparison.check_call(checked, &place, &program);
    let checked = random_image::<Plain>(comparison, &program, &mut random);
    comparison.check_call(checked, &place, &program);
}

pub fn draw(random: &mut Random) -> Program {
    if random.chance(1, 5) {
        return dense::image(random);
    }
    let words = match random.below(400) {
        0 => 16_384,
        1..=8 => 1000,
        _ => random.pick(&[4, 5, 8, 16, 24, 32, 48, 64, 64, 100, 128, 128, 256]),
    };
    match random.below(20) {
        0..=12 => programs::lively(random, words, random_count(words)),
        13..=16 => programs::program(random, words),
        _ => programs::noise(random, words),
    }
}

fn random_count(words: u32) -> u64 {
    if words > 256 {
        2000
    } else {
        300
    }
}

fn random_image<M: Compared>(
    comparison: &mut Comparison,
    program: &Program,
    random: &mut Random,
) -> Checked<()> {
    let memory = program.memory();
    let counts = M::counts(comparison);
    counts.images += 1;
    let (answer, mut pair) = Pair::<M>::start(program.r, program.flags, program.entry, &memory)?;
    counts.started(answer);
    let small = memory.len() <= 1024;
    // How the budgets are split, and how many calls.
    let (style, calls) = match random.below(10) {
        0..=4 => (0, if small { 400 } else { 60 }),
        5..=7 => (1, if small { 120 } else { 40 }),
        8 => (2, 12),
        _ => (3, 40),
    };
    // How often a settle comes in between, of 40 times. Half of the images have none, so that single
    // cycles come to the last steps of long instructions as well.
    let settles = random.pick(&[0, 0, 1, 10]);
    let mut total = 0;
    let mut after_stop = 0;
    let mut moments = 3;
    let end_at = if random.chance(1, 12) {
        random.below(calls)
    } else {
        u32::MAX
    };
    for call in 0..calls {
        if random.chance(1, 20) {
            refused(counts, &mut pair, random)?;
        }
        if moments > 0 && random.chance(6, calls + 6) && (small || random.chance(1, 8)) {
            moments -= 1;
            tamper(counts, &pair, random)?;
        }
        if random.chance(1, 40) {
            poke(counts, &mut pair, random);
        }
        if call == end_at {
            M::near_the_end(&mut pair, random);
        }
        let budget = match style {
            0 => 1,
            1 => u64::from(random.below(45)),
            2 => u64::from(random.below(20_000)),
            _ => random.pick(&[1, 1, 2, 3, 7, 50, 400, 999, 3000]),
        };
        counts.sees(&pair, budget);
        let (answer, used) = pair.run(pair.length, budget)?;
        counts.saw(&pair, answer, used, budget);
        total += used;
        if random.chance(settles, 40) {
            M::settle(counts, &mut pair, memory.len())?;
        }
        after_stop += u32::from(answer >= 11);
        if after_stop > 3 {
            break;
        }
    }
    if random.chance(1, 300) {
        let (answer, used) = pair.run(pair.length, 1_000_000)?;
        counts.saw(&pair, answer, used, 1_000_000);
        total += used;
    }
    counts.instructions += M::instructions(&pair, total);
    Ok(())
}

/// A call that is refused, by its memory or its budget or both, unless the machine has a say.
fn refused<M: Compared>(
    counts: &mut Machines,
    pair: &mut Pair<M>,
    random: &mut Random,
) -> Checked<()> {
    let length = pair.length;
    let lent = if random.chance(1, 2) {
        length
    } else {
        let choices = [
            0,
            1,
            4,
            16,
            length - 1,
            length - 4,
            length + 1,
            length + 4,
            length + 8,
        ];
        random.pick(&choices)
    };
    let budget = if lent == length || random.chance(1, 3) {
        random.pick(&[
            1_000_001,
            1_000_002,
            2_000_000,
            1 << 32,
            (1 << 32) + 5,
            1 << 40,
            (1 << 40) + 1,
            u64::MAX,
            u64::MAX - 1_000_000,
            1 << 63,
        ])
    } else {
        u64::from(random.below(3))
    };
    let (answer, used) = pair.run(lent, budget)?;
    counts.saw(pair, answer, used, budget);
    if lent != length {
        M::settle(counts, pair, lent)?;
    }
    Ok(())
}

/// The owner of the memory writes to it between calls, mostly near the words already fetched.
fn poke<M: Compared>(counts: &mut Machines, pair: &mut Pair<M>, random: &mut Random) {
    let near = pair.product.as_ref()[15] as usize + random.below(24) as usize;
    let address = if near >= 12 && near - 12 < pair.length && random.chance(2, 3) {
        near - 12
    } else {
        random.below(pair.length as u32) as usize
    };
    let byte = pair.memory()[address] ^ 1 << random.below(8);
    pair.poke(address, byte);
    counts.pokes += 1;
}

/// Each field at odd values, then a few fields together, and those that go together, on copies.
fn tamper<M: Compared>(counts: &mut Machines, pair: &Pair<M>, random: &mut Random) -> Checked<()> {
    let length = pair.length as u32;
    for field in 0..M::NAMES.len() {
        let old = pair.product.as_ref()[field];
        let mut copy = pair.clone();
        copy.set(field, odd::value(random, old, length));
        run_tampered(counts, copy, random)?;
    }
    for _ in 0..12 {
        let mut copy = pair.clone();
        for _ in 0..random.below(6) + 2 {
            let field = random.pick(M::TOGETHER);
            let value = if random.chance(3, 4) {
                odd::likely(random, field, copy.product.as_ref(), length)
            } else {
                odd::value(random, copy.product.as_ref()[field], length)
            };
            copy.set(field, value);
        }
        run_tampered(counts, copy, random)?;
    }
    for set in M::made_up(random, pair.product.as_ref()) {
        let mut copy = pair.clone();
        copy.set_all(&set);
        run_tampered(counts, copy, random)?;
    }
    Ok(())
}

fn run_tampered<M: Compared>(
    counts: &mut Machines,
    mut pair: Pair<M>,
    random: &mut Random,
) -> Checked<()> {
    let held = pair.product.as_ref()[M::LENGTH] as usize;
    if held != pair.length && held <= 70_000 && random.chance(3, 4) {
        pair.resize(held);
    }
    let lent = if random.chance(1, 10) {
        random.below(pair.most() as u32 + 1) as usize
    } else {
        pair.length
    };
    let budget = random.pick(&[0, 1, 1, 1, 2, 3, 5, 19, 20, 21, 22, 40, 60, 1_000_001]);
    counts.tampered += 1;
    if random.chance(1, 2) {
        M::settle(counts, &mut pair.clone(), lent)?;
    }
    let (answer, used) = pair.run(lent, budget)?;
    counts.tampered_bad += u64::from(answer == 11);
    counts.saw(&pair, answer, used, budget);
    if answer == 0 {
        let (answer, used) = pair.run(lent, 1)?;
        counts.saw(&pair, answer, used, 1);
    }
    // Where the run was refused the record is still as it was tampered with.
    M::settle(counts, &mut pair, lent)
}
