//! Multiplies of every m at both ends of its range: by every split, and with another Rs, word, phase,
//! latch or stop before each of their steps.

use crate::archive::*;
use crate::comparison::{Checked, Compared, Comparison, Place};
use crate::counts::Machines;
use crate::odd::count;
use crate::odd_sums;
use crate::pair::Pair;
use interpreter::arm::Shift;
use interpreter::assembler::*;
use interpreter::durations::ends;
use interpreter::pipeline::Core;
use interpreter::plain::Plain;
use interpreter::programs::Program;

/// Where the multiply stands, and the cycles before its first step.
const ENTRY: u32 = 8;
const START: u64 = 2;

/// The registers of Rm, Rs and Rn.
const RM: u32 = 1;
const RS: u32 = 2;
const RN: u32 = 3;

/// All forms with registers of their own, then with Rd as Rs, as Rn and as both, with Rm as Rs and
/// as Rn, with an Rn that has no use, and under a condition.
const FORMS: usize = 11;

fn forms() -> [u32; FORMS] {
    [
        mul(4, RM, RS),
        muls(4, RM, RS),
        mla(4, RM, RS, RN),
        mlas(4, RM, RS, RN),
        muls(RS, RM, RS),
        mla(RN, RM, RS, RN),
        mlas(RS, RM, RS, RS),
        mul(4, RS, RS),
        mlas(4, RM, RS, RM),
        multiply(SETS, 4, RM, RS, 14),
        on(2, mlas(4, RM, RS, RN)),
    ]
}

/// Each m with its least and its greatest Rs.
fn multipliers() -> impl Iterator<Item = (u32, u32)> {
    (1..=16).flat_map(|m| ends(m).map(|rs| (m, rs)))
}

pub fn all(comparison: &mut Comparison) {
    let total = multipliers().count() * FORMS;
    comparison.begin("multiplies", total as u64, "multiplies");
    let mut done = 0;
    for (m, rs) in multipliers() {
        for word in forms() {
            one(comparison, word, m, rs);
            done += 1;
            comparison.reached(done);
        }
    }
}

fn one(comparison: &mut Comparison, word: u32, m: u32, rs: u32) {
    let place = Place::Within(format!("multiply {word:08X} by {rs:X}"));
    let program = image(word, rs);
    let cycles = START + u64::from(m) + 1;
    let checked = by_every_split::<Core>(comparison, &program, cycles + 5);
    comparison.check_call(checked, &place, &program);
    let checked = by_every_split::<Plain>(comparison, &program, 5);
    comparison.check_call(checked, &place, &program);
    let checked = at_every_step(comparison, &program, m);
    comparison.check_call(checked, &place, &program);
}

/// The multiply, words that use what it leaves, and a stop.
fn image(word: u32, rs: u32) -> Program {
    let mut words = vec![0; 16];
    words[ENTRY as usize / 4..][..4].copy_from_slice(&[
        word,
        op(ADC, 5, 4, plain(RS)),
        keep_flags(6),
        SWI,
    ]);
    let mut r = [0; 15];
    for (name, register) in (0..).zip(&mut r) {
        *register = 0x0101_0101 * name;
    }
    r[RM as usize] = 0x9E37_79B9;
    r[RS as usize] = rs;
    r[RN as usize] = 0x8000_0001;
    Program {
        words,
        r,
        flags: 0xA,
        entry: ENTRY,
    }
}

fn started<M: Compared>(counts: &mut Machines, program: &Program) -> Checked<Pair<M>> {
    let memory = program.memory();
    let (answer, pair) = Pair::<M>::start(program.r, program.flags, program.entry, &memory)?;
    counts.started(answer);
    counts.images += 1;
    Ok(pair)
}

fn counted_run<M: Compared>(
    counts: &mut Machines,
    pair: &mut Pair<M>,
    budget: u64,
) -> Checked<(u32, u64)> {
    counts.sees(pair, budget);
    let (answer, used) = pair.run(pair.length, budget)?;
    counts.saw(pair, answer, used, budget);
    Ok((answer, used))
}

/// One after the other, and then as two budgets up to `most` and what is left.
pub fn by_every_split<M: Compared>(
    comparison: &mut Comparison,
    program: &Program,
    most: u64,
) -> Checked<()> {
    let counts = M::counts(comparison);
    let mut singly = started::<M>(counts, program)?;
    let mut total = 0;
    for _ in 0..=most {
        total += counted_run(counts, &mut singly, 1)?.1;
    }
    counts.instructions += M::instructions(&singly, total);
    for first in 0..=most {
        for second in 0..=most - first {
            let mut pair = started::<M>(counts, program)?;
            let mut total = 0;
            for budget in [first, second, most, 1] {
                total += counted_run(counts, &mut pair, budget)?.1;
            }
            counts.instructions += M::instructions(&pair, total);
        }
    }
    Ok(())
}

/// Before each step, the first and the one past the last too, copies with other values.
fn at_every_step(comparison: &mut Comparison, program: &Program, m: u32) -> Checked<()> {
    let counts = &mut comparison.counts.core;
    for step in 1..=m + 2 {
        let mut pair = started::<Core>(counts, program)?;
        counted_run(counts, &mut pair, START + u64::from(step) - 1)?;
        for (m, rs) in multipliers() {
            tampered(counts, &pair, &[(RS as usize, rs)])?;
            // Its last step but one, its last, and one that it lacks.
            for phase in [m + 1, m + 2, m + 3] {
                tampered(counts, &pair, &[(RS as usize, rs), (CORE_PHASE, phase)])?;
            }
        }
        for phase in (0..=22).chain([0x100, 0x103, u32::MAX - 1, u32::MAX]) {
            tampered(counts, &pair, &[(CORE_PHASE, phase)])?;
        }
        for word in others(pair.product[CORE_IX]) {
            tampered(counts, &pair, &[(CORE_IX, word)])?;
        }
        tampered(counts, &pair, &[(CORE_IX, 0), (CORE_IX + 1, 0)])?;
        for flags in 0..=16 {
            tampered(counts, &pair, &[(CORE_FLAGS, flags)])?;
        }
        for latch in [CORE_ADDRESS, CORE_DATUM, CORE_BASE] {
            for value in [1, 4, 0x40, 0xFFFF_FFFC] {
                tampered(counts, &pair, &[(latch, value)])?;
            }
        }
        for stop in 20..=26 {
            tampered(counts, &pair, &[(CORE_STOP, stop)])?;
        }
        for sums in odd_sums::close(count(&pair.product, CORE_CYCLES)) {
            tampered(counts, &pair, &odd_sums::fields(sums))?;
        }
    }
    Ok(())
}

/// Words in the place of a multiply: other multiplies, some that meet 23 and some that fail, words
/// beside them, and the other classes.
fn others(word: u32) -> Vec<u32> {
    let field = |low: u32, name: u32| word & !(15 << low) | name << low;
    let mut words = vec![
        field(0, word >> 16 & 15),
        field(0, PC),
        field(8, PC),
        field(12, PC),
        field(16, PC),
        field(8, RN),
        word ^ ACCUMULATE,
        word ^ SETS,
        SWI,
        SWP,
        mov(0, number(1)),
        mov(0, by_register(1, Shift::Lsl, 2)),
        ldr(0, 7, 0),
        str(0, 7, 0),
        block(LOAD | UP, 7, 0xFFFF),
        block(STORE | UP, 7, 0xFFFF),
        branch_link(0),
    ];
    words.extend((0..16).map(|condition| on(condition, word)));
    words.extend((4..8).chain(22..28).map(|place| word ^ 1 << place));
    words
}

/// A copy with these fields changed, run by nothing, by one cycle and then to the end.
fn tampered(counts: &mut Machines, pair: &Pair<Core>, fields: &[(usize, u32)]) -> Checked<()> {
    let mut pair = pair.clone();
    pair.set_all(fields);
    counts.tampered += 1;
    let (answer, _) = pair.run(pair.length, 0)?;
    counts.tampered_bad += u64::from(answer == 11);
    counts.saw(&pair, answer, 0, 0);
    for budget in [1, 40] {
        let (answer, used) = pair.run(pair.length, budget)?;
        counts.saw(&pair, answer, used, budget);
    }
    Ok(())
}
