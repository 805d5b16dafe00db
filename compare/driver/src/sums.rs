//! What each row of the paper's table adds to the sums: by many ways to the same boundaries, and held
//! to the table as well.

use crate::archive::*;
use crate::comparison::{Checked, Comparison, Place};
use crate::counts::Machines;
use crate::difference::show;
use crate::directed::split;
use crate::multiplies::by_every_split;
use crate::odd::count;
use crate::odd_sums::{self, Numbers};
use crate::pair::Pair;
use crate::settles::{image, run, settle, AT_DATA, AT_TARGET, RS, TURN};
use interpreter::arm::Shift;
use interpreter::assembler::*;
use interpreter::durations::ends;
use interpreter::pipeline::Core;
use interpreter::programs::Program;

/// A start's refills: N, S and I, and its cycles.
const START: Numbers = [1, 1, 0];
const START_CYCLES: u64 = 2;

pub fn all(comparison: &mut Comparison) {
    let rows = rows();
    comparison.begin("sums", rows.len() as u64, "words");
    for (index, row) in rows.iter().enumerate() {
        one(comparison, row);
        comparison.reached(index as u64 + 1);
    }
}

/// A word, what Rs holds, and the N, S and I that it adds.
struct Row {
    word: u32,
    rs: u32,
    adds: Numbers,
}

/// Each word always, on a condition that passes and on one that fails.
fn rows() -> Vec<Row> {
    let row = |word, adds| Row {
        word,
        rs: 0x21,
        adds,
    };
    let mut rows = Vec::new();
    for (adds, words) in by_class() {
        for word in words {
            rows.extend([row(word, adds), row(on(1, word), adds)]);
            rows.push(row(on(0, word), [0, 1, 0]));
        }
    }
    // Failed ones that would stop.
    for word in [SWI, SWP, mul(15, 15, 15), block(LOAD, 15, 0), ldr(5, 3, 0)] {
        rows.extend([0, NEVER].map(|condition| row(on(condition, word), [0, 1, 0])));
    }
    for (m, rs) in (1..=16).flat_map(|m| ends(m).map(|rs| (m, rs))) {
        let adds = [0, 1, m.into()];
        let words = [
            mul(5, 3, RS),
            mlas(5, 3, RS, TURN),
            muls(RS, 3, RS),
            mla(RS, 3, RS, RS),
        ];
        rows.extend(words.map(|word| Row { word, rs, adds }));
    }
    rows
}

fn by_class() -> Vec<(Numbers, Vec<u32>)> {
    let turned = by_register(AT_TARGET, Shift::Ror, TURN);
    let mut classes = vec![
        (
            [0, 1, 0],
            vec![
                ops(ADD, 5, 0, number(3)),
                movs(5, by_amount(3, Shift::Ror, 0)),
                ops(TEQ, 15, 3, number(1)),
            ],
        ),
        (
            [0, 1, 1],
            vec![
                ops(ADC, 5, 15, turned),
                ops(CMP, 0, 15, turned),
                ops(CMN, 15, 3, turned),
            ],
        ),
        (
            [1, 2, 0],
            vec![
                mov(15, plain(AT_TARGET)),
                ops(ADD, 15, AT_TARGET, number(4)),
                op(MVN, 15, 0, number(0)),
                branch(10),
                branch_link(10),
                branch(-2),
            ],
        ),
        (
            [1, 2, 1],
            vec![mov(15, turned), ops(ORR, 15, AT_TARGET, turned)],
        ),
    ];
    classes.extend(singles());
    classes.extend(blocks());
    classes
}

fn singles() -> Vec<(Numbers, Vec<u32>)> {
    let [mut loads, mut loads_to_r15, mut stores] = [Vec::new(), Vec::new(), Vec::new()];
    for bits in [UP, BEFORE | UP, BEFORE | UP | W] {
        for rd in [5, AT_DATA] {
            loads.push(single(LOAD | bits, rd, AT_DATA, 6));
            loads.push(single(LOAD | BYTE | bits, rd, AT_DATA, 5));
            stores.push(single(STORE | bits, rd, AT_DATA, 6));
            stores.push(single(STORE | BYTE | bits, rd, AT_DATA, 5));
        }
        loads_to_r15.push(single(LOAD | bits, 15, AT_DATA, 8));
        stores.push(single(STORE | bits, 15, AT_DATA, 8));
    }
    let shifted = by_amount(TURN, Shift::Lsr, 1);
    loads.push(single_by(LOAD | BEFORE | UP, 5, AT_DATA, shifted));
    loads_to_r15.push(single_by(LOAD | BEFORE | UP, 15, AT_DATA, shifted));
    stores.push(single_by(STORE | BEFORE | UP, 5, AT_DATA, shifted));
    vec![
        ([1, 1, 1], loads),
        ([2, 2, 1], loads_to_r15),
        ([2, 0, 0], stores),
    ]
}

/// Of n registers: the lowest, the highest, and with R15 where it is not among them.
fn blocks() -> Vec<(Numbers, Vec<u32>)> {
    let mut classes = Vec::new();
    for n in 1..=16u32 {
        let lowest = (1 << n) - 1;
        let highest = lowest << (16 - n);
        let words = n.into();
        if n < 16 {
            let loads = [0, W].map(|w| block(LOAD | UP | w, AT_DATA, lowest));
            classes.push(([1, words, 1], loads.to_vec()));
        }
        let loads = [0, W].map(|w| block(LOAD | UP | w, AT_DATA, highest));
        classes.push(([2, words + 1, 1], loads.to_vec()));
        let stores = [lowest, highest].map(|list| block(STORE | UP | W, AT_DATA, list));
        classes.push(([2, words - 1, 0], stores.to_vec()));
    }
    classes
}

fn one(comparison: &mut Comparison, row: &Row) {
    let place = Place::Within(format!("sums of {:08X}, Rs {:X}", row.word, row.rs));
    let program = image(row.word, row.rs);
    match by_the_table(comparison, &program, row) {
        Ok(None) => {}
        Ok(Some(text)) => comparison.differs(&place, &format!("{text}\n{}", show(&program))),
        Err(difference) => comparison.check_call(Err(difference), &place, &program),
    }
    let checked = by_many_ways(comparison, &program, row);
    comparison.check_call(checked, &place, &program);
}

/// Single cycles of a start and of the word: the product's sums stay as they are up to the last and
/// are the table's then.
fn by_the_table(
    comparison: &mut Comparison,
    program: &Program,
    row: &Row,
) -> Checked<Option<String>> {
    let counts = &mut comparison.counts.core;
    let mut pair = started(counts, program)?;
    let mut wanted = [0; 3];
    for added in [START, row.adds] {
        let cycles: u64 = added.iter().sum();
        for left in (0..cycles).rev() {
            run(counts, &mut pair, 1)?;
            if left == 0 {
                wanted = std::array::from_fn(|at| wanted[at] + added[at]);
            }
            let sums = odd_sums::of(&pair.product);
            let is_boundary = pair.product[CORE_PHASE] == 0;
            if sums != wanted || is_boundary != (left == 0) {
                let after = count(&pair.product, CORE_CYCLES);
                return Ok(Some(format!(
                    "after {after} cycles, with {left} left to the boundary, N, S and I are \
                     {sums:?}, and by the table {wanted:?}"
                )));
            }
        }
    }
    Ok(None)
}

fn started(counts: &mut Machines, program: &Program) -> Checked<Pair<Core>> {
    let memory = program.memory();
    let (answer, pair) = Pair::<Core>::start(program.r, program.flags, program.entry, &memory)?;
    counts.started(answer);
    counts.images += 1;
    Ok(pair)
}

/// To the word's end and a little further.
fn by_many_ways(comparison: &mut Comparison, program: &Program, row: &Row) -> Checked<()> {
    let cycles = START_CYCLES + row.adds.iter().sum::<u64>();
    by_every_split::<Core>(comparison, program, cycles + 3)?;
    let memory = program.memory();
    for splits in [&[2, 1][..], &[1, 3], &[3, 2, 4], &[1000]] {
        split::<Core>(comparison, program, &memory, splits, cycles + 12)?;
    }
    let counts = &mut comparison.counts.core;
    for budget in 0..=cycles {
        let mut pair = started(counts, program)?;
        for _ in 0..4 {
            run(counts, &mut pair, budget)?;
            settle(counts, &mut pair)?;
        }
    }
    Ok(())
}
