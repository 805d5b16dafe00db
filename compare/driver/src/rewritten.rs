//! Images rewritten between calls where the core has fetched other words.

use crate::archive::CORE_PC;
use crate::arguments::Asked;
use crate::comparison::{counted_settle, Checked, Compared, Comparison, Place};
use crate::counts::LONG;
use crate::difference::CallDifference;
use crate::pair::Pair;
use crate::writes;
use interpreter::memory;
use interpreter::pipeline::{Core, Phase};
use interpreter::programs::Program;
use interpreter::random::Random;

/// How many images are rewritten, and at how many moments each.
const WRITTEN_IMAGES: u64 = 1500;
const COPIES: u32 = 60;

pub fn all(comparison: &mut Comparison, first: u64) {
    comparison.begin("rewritten images", WRITTEN_IMAGES, "images");
    for done in 0..WRITTEN_IMAGES {
        one(comparison, first.wrapping_add(done));
        comparison.reached(done + 1);
    }
}

pub fn one(comparison: &mut Comparison, number: u64) {
    let mut random = Random::new(number);
    let program = writes::image(&mut random);
    let checked = written(comparison, &program, &mut random);
    let place = Place::Alone(Asked::Writes(number));
    comparison.check_call(checked, &place, &program);
}

/// At many moments of a long run a copy of the core gets other words and is run far.
fn written(comparison: &mut Comparison, program: &Program, random: &mut Random) -> Checked<()> {
    let memory = program.memory();
    let (answer, mut pair) = Pair::<Core>::start(program.r, program.flags, program.entry, &memory)?;
    comparison.counts.core.started(answer);
    comparison.counts.writes.images += 1;
    for _ in 0..COPIES {
        let budget = random.pick(&[1, 2, 3, 7, 30, 300]);
        let (answer, _) = counted_run(comparison, &mut pair, budget)?;
        if answer != 0 {
            break;
        }
        written_copy(comparison, pair.clone(), random)?;
    }
    Ok(())
}

/// Up to three times the owner writes and the core runs, mostly from a boundary, now and then after a
/// settle.
fn written_copy(
    comparison: &mut Comparison,
    mut pair: Pair<Core>,
    random: &mut Random,
) -> Checked<()> {
    comparison.counts.writes.copies += 1;
    for _ in 0..random.below(3) + 1 {
        match random.below(8) {
            0 | 1 => {}
            2..=4 => to_boundary(comparison, &mut pair)?,
            _ => settle(comparison, &mut pair)?,
        }
        let written = rewrite(&mut pair, random);
        let after_writes = |mut difference: Box<CallDifference>| {
            difference.call += &format!(", after the writes {written:X?}");
            difference
        };
        if random.chance(1, 2) {
            let phase = Core::phase(&pair);
            settle(comparison, &mut pair).map_err(after_writes)?;
            let counts = &mut comparison.counts.writes;
            counts.settles += 1;
            counts.settles_midway += u64::from(phase.is_some_and(|phase| phase != 0));
        }
        let (ix, ir1) = disagreements(&pair);
        let budget = match random.below(4) {
            0 => u64::from(random.below(40)),
            1 => u64::from(random.below(1000)),
            _ => random.pick(&[500, 999, 2000, 5000]),
        };
        let (answer, used) = counted_run(comparison, &mut pair, budget).map_err(after_writes)?;
        let counts = &mut comparison.counts.writes;
        counts.words += written.len() as u64;
        counts.runs += 1;
        counts.cycles += used;
        counts.other_ix += u64::from(ix);
        counts.other_ir1 += u64::from(ir1);
        counts.long += u64::from(used >= LONG);
        counts.long_other += u64::from(used >= LONG && (ix || ir1));
        if answer != 0 {
            break;
        }
    }
    Ok(())
}

fn counted_run(
    comparison: &mut Comparison,
    pair: &mut Pair<Core>,
    budget: u64,
) -> Checked<(u32, u64)> {
    let counts = &mut comparison.counts.core;
    counts.sees(pair, budget);
    let before = Core::instructions(pair, 0);
    let (answer, used) = pair.run(pair.length, budget)?;
    counts.saw(pair, answer, used, budget);
    counts.instructions += Core::instructions(pair, used) - before;
    Ok((answer, used))
}

fn settle(comparison: &mut Comparison, pair: &mut Pair<Core>) -> Checked<()> {
    let counts = &mut comparison.counts.core;
    let before = Core::instructions(pair, 0);
    counted_settle(counts, pair, pair.length)?;
    counts.instructions += Core::instructions(pair, 0) - before;
    Ok(())
}

/// Single cycles until step 1 is the next.
fn to_boundary(comparison: &mut Comparison, pair: &mut Pair<Core>) -> Checked<()> {
    while Core::phase(pair).is_some_and(|phase| phase != 0) {
        counted_run(comparison, pair, 1)?;
    }
    Ok(())
}

/// Other words for A, A+4 or both, now and then A+8 too, as they are at a boundary: which, by
/// address.
fn rewrite(pair: &mut Pair<Core>, random: &mut Random) -> Vec<(u32, u32)> {
    let pc = pair.product[CORE_PC];
    let mut written = Vec::new();
    for before in random.pick(&[&[4][..], &[4], &[8], &[8, 4], &[8, 4], &[4, 0]]) {
        let address = pc.wrapping_sub(*before);
        if !memory::inside(address, pair.length) {
            continue;
        }
        let elsewhere = 4 * random.below(pair.length as u32 / 4);
        let [old, elsewhere] = [address, elsewhere].map(|it| memory::word(pair.memory(), it));
        let word = writes::word(random, old, elsewhere);
        pair.poke_word(address, word);
        written.push((address, word));
    }
    written
}

/// On a boundary: whether the words at A and at A+4 are others than those of IX and of IR1.
fn disagreements(pair: &Pair<Core>) -> (bool, bool) {
    match &pair.expected {
        Some(core) if core.phase == Phase::Step(1) => {
            let differs = |held: Option<u32>, before: u32| {
                held != memory::fetch(pair.memory(), core.pc.wrapping_sub(before))
            };
            (differs(core.ix, 8), differs(core.ir1, 4))
        }
        _ => (false, false),
    }
}
