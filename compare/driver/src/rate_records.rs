//! What arrays say that their coming cycle stores: words of every class in every phase, with any
//! latch, with a stop, and arrays that stand for no core.

use crate::archive::*;
use crate::comparison::{Checked, Comparison, Place};
use crate::pair::Pair;
use crate::rate_pair::RatePair;
use crate::settles::image;
use interpreter::assembler::*;
use interpreter::pipeline::Core;
use interpreter::programs::Program;
use interpreter::random::Random;

const RANDOM_ARRAYS: u64 = 300_000;

const PHASES: [u32; 27] = [
    0,
    1,
    2,
    3,
    4,
    5,
    6,
    7,
    8,
    9,
    10,
    11,
    12,
    13,
    14,
    15,
    16,
    17,
    18,
    19,
    20,
    21,
    0x102,
    0x103,
    0x8000_0003,
    u32::MAX - 1,
    u32::MAX,
];

const LATCHES: [u32; 8] = [0, 1, 2, 3, 0x83, 0xBC, 0x8000_0001, u32::MAX];

/// Stops that are held, and that no run finds.
const STOPS: [u32; 7] = [1, 20, 21, 24, 25, 26, u32::MAX];

pub fn all(comparison: &mut Comparison, seed: u64) {
    let program = image(0, 0);
    let checked = by_word_phase_and_latch(comparison, &program);
    let place = Place::Within("what arrays say that they store".to_string());
    comparison.check_call(checked, &place, &program);
    let checked = random(comparison, &program, seed);
    comparison.check_call(checked, &place, &program);
}

/// Stores of every form, those that a rule forbids too, and what is near them.
fn words() -> Vec<u32> {
    let mut words = vec![
        str(1, 2, 0),
        str(15, 2, 4),
        str(1, 15, 0),
        single(STORE | W, 1, 15, 4),
        single(STORE | BYTE | UP, 1, 2, 4),
        single(STORE | BYTE | BEFORE, 15, 2, 4),
        single_by(STORE | UP, 1, 2, plain(3)),
        single_by(STORE | UP | BYTE, 1, 2, plain(15)),
        // A shift by register is no transfer.
        single_by(STORE | UP, 1, 2, plain(3)) | 1 << 4,
        ldr(1, 2, 0),
        ldr(15, 2, 0),
        single(LOAD | BYTE | UP, 1, 2, 0),
        op(ADD, 1, 2, plain(3)),
        mov(15, plain(1)),
        branch(-2),
        branch_link(4),
        mul(5, 3, 2),
        mla(5, 3, 2, 1),
        SWI,
        SWP,
        0,
        u32::MAX,
    ];
    for n in 0..=16 {
        let list = (0xFFFF_u32 << n & 0xFFFF) ^ 0xFFFF;
        words.push(block(STORE | UP, 2, list));
        words.push(block(STORE | BEFORE | W | S_BIT, 15, list));
        words.push(block(LOAD | UP, 2, list));
    }
    let unsure: Vec<u32> = words.iter().step_by(3).copied().collect();
    words.extend(
        unsure
            .iter()
            .flat_map(|&word| [on(0, word), on(NEVER, word)]),
    );
    words
}

fn started(program: &Program) -> Checked<RatePair> {
    let memory = program.memory();
    let (_, core) = Pair::<Core>::start(program.r, program.flags, program.entry, &memory)?;
    Ok(RatePair::new(core))
}

fn by_word_phase_and_latch(comparison: &mut Comparison, program: &Program) -> Checked<()> {
    let counts = &mut comparison.counts.rates;
    let mut pair = started(program)?;
    pair.core.set_all(&[
        (CORE_IR1, 0),
        (CORE_IR1 + 1, 1),
        (CORE_IR2, 0),
        (CORE_IR2 + 1, 1),
    ]);
    for word in words() {
        for phase in PHASES {
            pair.core
                .set_all(&[(CORE_IX, word), (CORE_IX + 1, 1), (CORE_PHASE, phase)]);
            for latch in LATCHES {
                pair.core.set(CORE_ADDRESS, latch);
                counts.asks(pair.store()?);
            }
            let others = STOPS.map(|stop| vec![(CORE_STOP, stop)]);
            for fields in others.into_iter().chain(marks()) {
                let mut copy = pair.clone();
                copy.core.set_all(&fields);
                counts.asks(copy.store()?);
            }
        }
    }
    Ok(())
}

/// Words that are blank, that are blank and hold something, and marks that are none.
fn marks() -> impl Iterator<Item = Vec<(usize, u32)>> {
    [CORE_IR1, CORE_IR2, CORE_IX].into_iter().flat_map(|place| {
        let marked = |word, mark| vec![(place, word), (place + 1, mark)];
        let others = [2, 3, 0x101, 1 << 31, u32::MAX].map(|mark| vec![(place + 1, mark)]);
        let blank = [marked(0, 0), marked(1, 0), vec![(place + 1, 0)]];
        blank.into_iter().chain(others)
    })
}

/// Arrays of any words, whose word in IX stores as often as not.
fn random(comparison: &mut Comparison, program: &Program, seed: u64) -> Checked<()> {
    let counts = &mut comparison.counts.rates;
    let mut random = Random::new(seed);
    let mut pair = started(program)?;
    for _ in 0..RANDOM_ARRAYS {
        let mut fields: Vec<(usize, u32)> = (0..39).map(|at| (at, random.word())).collect();
        for place in [CORE_IR1, CORE_IR2, CORE_IX] {
            fields.push((place + 1, random.pick(&[1, 1, 1, 1, 1, 1, 1, 0])));
        }
        if random.chance(1, 2) {
            // A transfer that may be a store.
            let class = random.pick(&[2, 2, 3, 4, 4]);
            let word = random.word() & !(7 << 25 | 1 << 20) | class << 25;
            fields.push((CORE_IX, word));
        }
        fields.push((CORE_PHASE, random.below(24)));
        fields.push((CORE_STOP, random.pick(&[0, 0, 0, 0, 0, 0, 0, 24])));
        pair.core.set_all(&fields);
        counts.asks(pair.store()?);
    }
    Ok(())
}
