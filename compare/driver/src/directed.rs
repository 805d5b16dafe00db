//! Directed images: the vectors' of both machines and the timed ones.

use crate::comparison::{counted_settle, Checked, Compared, Comparison, Place};
use crate::images;
use crate::pair::{Machine, Pair};
use interpreter::core_vectors;
use interpreter::pipeline::Core;
use interpreter::plain::Plain;
use interpreter::programs::Program;
use interpreter::vectors;

pub fn all(comparison: &mut Comparison) {
    let cases = vectors::cases();
    let core_cases = core_vectors::cases();
    let total = cases.len() + core_cases.len() + images::NAMES.len();
    comparison.begin("directed and timed images", total as u64, "images");
    let mut done = 0;
    let mut reached = |comparison: &mut Comparison| {
        done += 1;
        comparison.reached(done);
    };
    for case in &cases {
        directed(comparison, case);
        reached(comparison);
    }
    for case in &core_cases {
        called(comparison, case);
        reached(comparison);
    }
    for name in images::NAMES {
        timed(comparison, name);
        reached(comparison);
    }
}

fn directed(comparison: &mut Comparison, case: &vectors::Case) {
    let mut words = case.words.clone();
    words.resize((case.length as usize / 4).max(words.len()), 0);
    let program = Program {
        words,
        r: case.r,
        flags: case.flags,
        entry: case.entry,
    };
    let place = Place::Within(format!("directed image '{}'", case.topic));
    let mut memory = program.memory();
    memory.resize(case.length as usize, 0);
    let checked = vector(comparison, case, &memory);
    comparison.check_call(checked, &place, &program);
    if case.mode == 0 {
        for splits in [&[1][..], &[3, 1, 2], &[1000]] {
            let checked = split::<Core>(comparison, &program, &memory, splits, 3000);
            comparison.check_call(checked, &place, &program);
            let checked = split::<Plain>(comparison, &program, &memory, splits, 1000);
            comparison.check_call(checked, &place, &program);
        }
    }
}

fn called(comparison: &mut Comparison, case: &core_vectors::Case) {
    let mut words = case.words.clone();
    words.resize((case.length as usize / 4).max(words.len()), 0);
    let program = Program {
        words,
        r: case.core[..15].try_into().expect("fifteen registers"),
        flags: case.core[16],
        entry: case.core[15],
    };
    let place = Place::Within(format!("calls of '{}'", case.topic));
    let mut memory = program.memory();
    memory.resize(case.length as usize, 0);
    let checked = core_vector(comparison, case, &program, &memory);
    comparison.check_call(checked, &place, &program);
}

fn timed(comparison: &mut Comparison, name: &str) {
    let program = images::image(name).expect("a timed image");
    let place = Place::Within(format!("timed image '{name}'"));
    for (splits, most) in [
        (&[1][..], 100_000),
        (&[7, 1, 100_000], 400_000),
        (&[1_000_000], 2_000_000),
    ] {
        let checked = split::<Core>(comparison, &program, &program.memory(), splits, most);
        comparison.check_call(checked, &place, &program);
        let checked = split::<Plain>(comparison, &program, &program.memory(), splits, most / 2);
        comparison.check_call(checked, &place, &program);
    }
}

/// The plain machine's vector as it is meant.
fn vector(comparison: &mut Comparison, case: &vectors::Case, memory: &[u8]) -> Checked<()> {
    let mut pair = if case.mode == 0 {
        Pair::<Plain>::start(case.r, case.flags, case.entry, memory)?.1
    } else {
        let plain = Plain {
            r: case.r,
            a: case.entry,
            flags: case.flags,
            stop: case.stop,
            length: case.length,
        };
        Pair::record(plain.array(), memory)
    };
    if case.lent as usize > pair.most() {
        pair.resize(case.lent as usize);
    }
    let count = u64::from(case.count);
    let (answer, used) = pair.run(case.lent as usize, count)?;
    let counts = &mut comparison.counts.plain;
    counts.images += 1;
    counts.saw(&pair, answer, used, count);
    counts.instructions += used;
    Ok(())
}

/// The core's vector as it is meant.
fn core_vector(
    comparison: &mut Comparison,
    case: &core_vectors::Case,
    program: &Program,
    memory: &[u8],
) -> Checked<()> {
    let counts = &mut comparison.counts.core;
    let mut pair = if case.mode == 0 {
        let (answer, pair) = Pair::<Core>::start(program.r, program.flags, program.entry, memory)?;
        counts.started(answer);
        pair
    } else {
        Pair::record(case.core, memory)
    };
    counts.images += 1;
    for call in &case.calls {
        let lent = call.lent as usize;
        if lent > pair.most() {
            pair.resize(lent);
        }
        if call.kind == core_vectors::SETTLE {
            counted_settle(counts, &mut pair, lent)?;
            continue;
        }
        let budget = u64::from(call.budget);
        counts.sees(&pair, budget);
        let (answer, used) = pair.run(lent, budget)?;
        counts.saw(&pair, answer, used, budget);
    }
    Ok(())
}

/// Runs by the budgets in turn until so much is used, or two calls past a stop.
pub fn split<M: Compared>(
    comparison: &mut Comparison,
    program: &Program,
    memory: &[u8],
    splits: &[u64],
    most: u64,
) -> Checked<()> {
    let counts = M::counts(comparison);
    counts.images += 1;
    let (answer, mut pair) = Pair::<M>::start(program.r, program.flags, program.entry, memory)?;
    counts.started(answer);
    let (mut total, mut after_stop) = (0, 0);
    for &budget in splits.iter().cycle() {
        counts.sees(&pair, budget);
        let (answer, used) = pair.run(memory.len(), budget)?;
        counts.saw(&pair, answer, used, budget);
        total += used;
        after_stop += u32::from(answer != 0);
        if total >= most || after_stop > 2 {
            break;
        }
    }
    counts.instructions += M::instructions(&pair, total);
    Ok(())
}
