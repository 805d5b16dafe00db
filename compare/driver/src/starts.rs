//! Starts, accepted and refused, and runs and settles of whatever they hand back.

use crate::comparison::{Checked, Compared, Comparison, Place};
use crate::pair::Pair;
use interpreter::programs::{self, Program};
use interpreter::random::Random;

pub fn all<M: Compared>(comparison: &mut Comparison) {
    let lengths = [
        0, 1, 3, 4, 8, 12, 13, 14, 15, 16, 17, 18, 19, 20, 24, 64, 4096, 65_528, 65_532, 65_533,
        65_534, 65_535, 65_536, 65_537, 65_540, 100_000,
    ];
    let flags = [0, 1, 6, 15, 16, 31, 0xF000_0000, u32::MAX];
    let mut random = Random::new(1);
    let name = format!("starts of the {}", M::KIND);
    comparison.begin(&name, lengths.len() as u64, "lengths");
    let place = Place::Within("starts".to_string());
    for (index, length) in lengths.into_iter().enumerate() {
        let near = length as u32;
        let entries = [
            0,
            1,
            2,
            3,
            4,
            12,
            16,
            near.wrapping_sub(4),
            near.wrapping_sub(2),
            near,
        ];
        for entry in entries
            .into_iter()
            .chain([near + 4, 1 << 26, u32::MAX, u32::MAX - 3])
        {
            for flags in flags {
                let program = Program {
                    words: (0..length / 4).map(|_| random.word()).collect(),
                    r: programs::registers(&mut random, 64),
                    flags,
                    entry,
                };
                let checked = start_and_run::<M>(comparison, &program, length);
                comparison.check_call(checked, &place, &program);
            }
        }
        comparison.reached(index as u64 + 1);
    }
}

fn start_and_run<M: Compared>(
    comparison: &mut Comparison,
    program: &Program,
    length: usize,
) -> Checked<()> {
    let mut memory = program.memory();
    memory.resize(length, 0x5A);
    let (answer, mut pair) = Pair::<M>::start(program.r, program.flags, program.entry, &memory)?;
    let counts = M::counts(comparison);
    counts.started(answer);
    let mut settled = pair.clone();
    for (lent, budget) in [
        (0, 1),
        (length, 1),
        (length, 0),
        (length, 2),
        (length + 4, 2_000_000),
    ] {
        M::settle(counts, &mut pair.clone(), lent)?;
        let (answer, used) = pair.run(lent, budget)?;
        counts.saw(&pair, answer, used, budget);
    }
    // On from the boundary that a settle reaches at once.
    for (lent, budget) in [(0, 0), (length, 1), (length, 2), (length + 4, 0)] {
        M::settle(counts, &mut settled, lent)?;
        let (answer, used) = settled.run(lent, budget)?;
        counts.saw(&pair, answer, used, budget);
    }
    Ok(())
}
