//! Settles of every class: after budgets that end before each step and refill, and of copies with
//! other fields, other memory and cycles near the most.

use crate::archive::*;
use crate::comparison::{counted_settle, Checked, Comparison, Place};
use crate::counts::Machines;
use crate::odd::count;
use crate::odd_sums::{self, long};
use crate::pair::Pair;
use interpreter::arm::{decode, Instruction, Shift};
use interpreter::assembler::*;
use interpreter::durations::ends;
use interpreter::pipeline::Core;
use interpreter::programs::Program;

/// Where the word stands, where a stored counter goes, and where sixteen words of data are, the last
/// of the memory.
const ENTRY: u32 = 0x10;
const TARGET: u32 = 0x40;
const DATA: u32 = 0x80;
const WORDS: usize = 0x30;

/// The start's refills, the longest word and two cycles more: so far the budgets go, and so far below
/// the most cycles the counts.
const FAR: u64 = 2 + 20 + 2;

const MOST_CYCLES: u64 = 1 << 40;

/// The registers of the target and of the data, of Rs, and of an amount that turns a register back to
/// what it was.
pub const AT_TARGET: u32 = 0;
pub const AT_DATA: u32 = 1;
pub const RS: u32 = 2;
pub const TURN: u32 = 4;

pub fn all(comparison: &mut Comparison) {
    let words = words();
    comparison.begin("settles", words.len() as u64, "words");
    for (index, &(word, rs)) in words.iter().enumerate() {
        let place = Place::Within(format!("settles of {word:08X}, Rs {rs:X}"));
        let program = image(word, rs);
        let checked = after_each_budget(comparison, &program);
        comparison.check_call(checked, &place, &program);
        comparison.reached(index as u64 + 1);
    }
}

/// Words of every class with what Rs holds, under flags 2.
fn words() -> Vec<(u32, u32)> {
    let mut words = processing();
    words.extend(singles());
    words.extend(blocks());
    words.extend([branch_to(ENTRY, TARGET), branch_link(-1), branch(-2)]);
    let failed: Vec<u32> = words.iter().map(|&word| on(0, word)).collect();
    words.extend(failed.into_iter().step_by(5));
    words.extend(stops());
    let mut words: Vec<(u32, u32)> = words.into_iter().map(|word| (word, 0x21)).collect();
    for rs in (1..=16).flat_map(ends) {
        let multiplies = [mul(5, 3, RS), mlas(5, 3, RS, 4), muls(RS, 3, RS)];
        words.extend(multiplies.map(|word| (word, rs)));
        words.push((on(0, mul(5, 3, RS)), rs));
    }
    words
}

/// R0 is the target and stays it, turned by R4; compares leave the counter.
fn processing() -> Vec<u32> {
    let turned = by_register(0, Shift::Ror, 4);
    vec![
        ops(ADD, 5, 0, number(3)),
        movs(5, by_amount(3, Shift::Ror, 0)),
        ops(TEQ, 15, 3, number(1)),
        ops(ADC, 5, 15, turned),
        ops(CMP, 0, 15, turned),
        ops(CMN, 15, 3, turned),
        mov(15, plain(0)),
        ops(ADD, 15, 0, number(4)),
        op(MVN, 15, 0, number(0)),
        mov(15, turned),
        ops(ORR, 15, 0, turned),
    ]
}

fn singles() -> Vec<u32> {
    let mut words = Vec::new();
    for bits in [UP, BEFORE | UP, BEFORE | UP | W] {
        for rd in [5, 1] {
            words.push(single(LOAD | bits, rd, 1, 6));
            words.push(single(STORE | BYTE | bits, rd, 1, 5));
        }
        words.push(single(LOAD | bits, 15, 1, 8));
        words.push(single(STORE | bits, 15, 1, 8));
    }
    words
}

/// Of each length, with the base among the registers, and with R15 and without.
fn blocks() -> Vec<u32> {
    let mut words = Vec::new();
    for n in 1..=16 {
        let lowest = (1 << n) - 1;
        let highest = lowest << (16 - n);
        for (list, w) in [(lowest, W), (highest, 0)] {
            words.push(block(LOAD | UP | w, 1, list));
            words.push(block(STORE | UP | w, 1, list));
        }
    }
    words
}

/// What a settle does not find.
fn stops() -> [u32; 5] {
    [
        SWI,
        op(CMP, 0, 0, plain(1)),
        ldr(5, 3, 0),
        str(5, 15, 0),
        block(STORE | UP, 15, 1),
    ]
}

/// The word, and behind it and at the target words that use what it leaves, and a stop.
pub fn image(word: u32, rs: u32) -> Program {
    let mut words = vec![0; WORDS];
    words[ENTRY as usize / 4..][..4].copy_from_slice(&[
        word,
        op(ADC, 6, 5, plain(1)),
        keep_flags(7),
        SWI,
    ]);
    words[TARGET as usize / 4..][..2].copy_from_slice(&[keep_flags(8), str(5, 15, 0)]);
    for (index, word) in (0..).zip(&mut words[DATA as usize / 4..]) {
        *word = index << 28 | TARGET | index & 3;
    }
    let mut r = [0; 15];
    for (name, register) in (1..).zip(&mut r) {
        *register = 0x0101_0101 * name;
    }
    r[..5].copy_from_slice(&[TARGET, DATA, rs, 0x8000_0003, 32]);
    Program {
        words,
        r,
        flags: 2,
        entry: ENTRY,
    }
}

/// By every budget until a stop is found.
fn after_each_budget(comparison: &mut Comparison, program: &Program) -> Checked<()> {
    let counts = &mut comparison.counts.core;
    let memory = program.memory();
    for budget in 0..=FAR {
        let (answer, mut pair) =
            Pair::<Core>::start(program.r, program.flags, program.entry, &memory)?;
        counts.started(answer);
        counts.images += 1;
        let answer = run(counts, &mut pair, budget)?;
        settled(counts, pair.clone())?;
        elsewhere(counts, &pair)?;
        near_the_most(counts, &pair)?;
        for fields in others(&pair) {
            tampered(counts, &pair, &fields)?;
        }
        if answer != 0 {
            break;
        }
    }
    Ok(())
}

pub fn run(counts: &mut Machines, pair: &mut Pair<Core>, budget: u64) -> Checked<u32> {
    counts.sees(pair, budget);
    let (answer, used) = pair.run(pair.length, budget)?;
    counts.saw(pair, answer, used, budget);
    Ok(answer)
}

pub fn settle(counts: &mut Machines, pair: &mut Pair<Core>) -> Checked<u32> {
    let (answer, _) = counted_settle(counts, pair, pair.length)?;
    Ok(answer)
}

/// Twice in a row, and then with runs between, up to a stop that is held.
fn settled(counts: &mut Machines, mut pair: Pair<Core>) -> Checked<()> {
    settle(counts, &mut pair)?;
    settle(counts, &mut pair)?;
    for budget in [0, 1, 1, 40, 0] {
        run(counts, &mut pair, budget)?;
        settle(counts, &mut pair)?;
    }
    Ok(())
}

/// On memory of another length, and then on its own.
fn elsewhere(counts: &mut Machines, pair: &Pair<Core>) -> Checked<()> {
    let mut pair = pair.clone();
    let length = pair.length;
    for lent in [
        0,
        1,
        16,
        length - 4,
        length - 1,
        length + 1,
        length + 4,
        length + 8,
    ] {
        counted_settle(counts, &mut pair, lent)?;
    }
    settle(counts, &mut pair)?;
    Ok(())
}

/// At cycles from which the most would be reached, missed and passed, whatever is left.
fn near_the_most(counts: &mut Machines, pair: &Pair<Core>) -> Checked<()> {
    for before in 0..=FAR {
        tampered(counts, pair, &long(CORE_CYCLES, MOST_CYCLES - before))?;
    }
    tampered(counts, pair, &long(CORE_CYCLES, MOST_CYCLES + 1))
}

/// A copy with these fields changed, settled twice, run by a cycle and settled.
pub fn tampered(counts: &mut Machines, pair: &Pair<Core>, fields: &[(usize, u32)]) -> Checked<()> {
    let mut pair = pair.clone();
    pair.set_all(fields);
    counts.tampered += 1;
    let answer = settle(counts, &mut pair)?;
    counts.tampered_bad += u64::from(answer == 11);
    settle(counts, &mut pair)?;
    run(counts, &mut pair, 1)?;
    settle(counts, &mut pair)?;
    Ok(())
}

/// Other values for the fields that a settle goes by, or that it is to keep.
fn others(pair: &Pair<Core>) -> Vec<Vec<(usize, u32)>> {
    let array = pair.product;
    let mut others = Vec::new();
    let mut each = |field: usize, values: &[u32]| {
        others.extend(values.iter().map(|&value| vec![(field, value)]));
    };
    let phases: Vec<u32> = (0..=20)
        .chain([0x103, 1 << 31, u32::MAX - 1, u32::MAX])
        .collect();
    each(CORE_PHASE, &phases);
    each(CORE_IX, &in_the_place_of(array[CORE_IX]));
    each(CORE_FLAGS, &(0..=16).collect::<Vec<u32>>());
    let near = [0, 4, 0x7E, 0x80, 0xB8, 0xBC, 0xBF, 0xC0, 0xFFFF_FFFC];
    each(CORE_ADDRESS, &near);
    each(CORE_DATUM, &[1, 0x8000_0000]);
    each(CORE_BASE, &[1, 0x84]);
    each(CORE_STOP, &(20..=26).collect::<Vec<u32>>());
    each(CORE_PC, &[0, 2, 0xBC, 0xC0, 0x03FF_FFFC, 0x0400_0000]);
    each(CORE_LENGTH, &[0, 12, 0xBC, 0xC4, 65_536, 65_540]);
    if multiplies(array[CORE_IX]) {
        let ends: Vec<u32> = (1..=16).flat_map(ends).collect();
        each(RS as usize, &ends);
    }
    for field in [CORE_IR1, CORE_IR2, CORE_IX] {
        // Another word and none; then what stands for no core.
        others.push(vec![(field, mov(9, number(9))), (field + 1, 1)]);
        others.push(vec![(field, 0), (field + 1, 0)]);
        others.push(vec![(field, 1), (field + 1, 0)]);
        others.push(vec![(field + 1, 2)]);
        others.push(vec![(field + 1, 2), (CORE_LENGTH, 64)]);
    }
    let cycles = array[CORE_CYCLES];
    others.push(vec![(CORE_RETIRED, cycles)]);
    others.push(vec![(CORE_RETIRED, cycles + 1)]);
    others.push(vec![(CORE_RETIRED + 1, 1)]);
    others.extend(odd_sums::about(count(&array, CORE_CYCLES)));
    others
}

fn multiplies(word: u32) -> bool {
    matches!(decode(word), Instruction::Multiply(_))
}

/// Words of every class, some that fail, that meet 23 or that are a bit away.
fn in_the_place_of(word: u32) -> Vec<u32> {
    let mut words = vec![
        SWI,
        mov(0, number(1)),
        mov(15, plain(0)),
        mov(5, by_register(0, Shift::Lsl, 4)),
        mov(15, by_register(0, Shift::Ror, 4)),
        ops(TEQ, 15, 0, by_register(0, Shift::Ror, 4)),
        mov(15, by_register(0, Shift::Ror, 15)),
        ldr(5, 1, 0),
        ldr(15, 1, 0),
        str(15, 1, 0),
        single(LOAD | BYTE | UP, 15, 1, 0),
        block(LOAD | UP, 1, 0x0003),
        block(LOAD | UP | W, 1, 0x8001),
        block(LOAD | UP, 1, 0xFFFF),
        block(STORE | UP | W, 1, 0x8006),
        block(STORE | UP, 1, 0xFFFF),
        block(LOAD | UP | S_BIT, 1, 0x0003),
        branch(-2),
        mul(5, 3, RS),
        mlas(RS, 3, RS, 4),
        mul(3, 3, RS),
    ];
    words.extend([0, 1, 2, NEVER].map(|condition| on(condition, word)));
    // L, the list's last, and what makes a multiply one.
    words.extend([20, 15, 4, 7].map(|place| word ^ 1 << place));
    words
}
