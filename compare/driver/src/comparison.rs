//! A comparison under way: its counts, how far it is, and the differences found.

use crate::archive::{CORE_CYCLES, CORE_PHASE, CORE_STOP};
use crate::arguments::Asked;
use crate::counts::{Counts, Machines};
use crate::difference::{show, CallDifference};
use crate::figures::grouped;
use crate::odd::Fields;
use crate::odd_sums::long;
use crate::pair::{Machine, Pair};
use crate::progress::Progress;
use interpreter::arm::{cycles_by_rs, decode, Instruction};
use interpreter::pipeline::{Core, Phase};
use interpreter::plain::Plain;
use interpreter::programs::Program;
use interpreter::random::Random;
use std::fmt;

pub type Checked<T> = Result<T, Box<CallDifference>>;

/// Where a difference is found.
#[derive(Clone)]
pub enum Place {
    /// In what can be asked for alone.
    Alone(Asked),
    /// In what only comes up on the way.
    Within(String),
}

impl fmt::Display for Place {
    fn fmt(&self, out: &mut fmt::Formatter) -> fmt::Result {
        match self {
            Place::Alone(asked) => asked.fmt(out),
            Place::Within(part) => part.fmt(out),
        }
    }
}

pub struct Comparison {
    pub asked: Asked,
    pub counts: Counts,
    pub progress: Progress,
    pub differences: u64,
    /// Where the first one of each part was, with the part's number.
    pub firsts: Vec<(usize, Place)>,
}

impl Comparison {
    pub fn new(asked: Asked, parts: usize) -> Comparison {
        Comparison {
            asked,
            counts: Counts::default(),
            progress: Progress::new(parts),
            differences: 0,
            firsts: Vec::new(),
        }
    }

    /// Begins the next part, which is to do so many of this unit.
    pub fn begin(&mut self, name: &str, total: u64, unit: &'static str) {
        self.progress.begin(name, total, unit);
        self.progress.tell(0, &self.verdict());
    }

    /// So many of the part's are done.
    pub fn reached(&mut self, done: u64) {
        if self.progress.due() {
            self.progress.tell(done, &self.verdict());
        }
    }

    /// How many differences in how much.
    pub fn verdict(&self) -> String {
        let ending = if self.differences == 1 { "" } else { "s" };
        format!(
            "{} difference{ending} in {}",
            grouped(self.differences),
            self.counts.show()
        )
    }

    /// Counts a difference and prints the first.
    pub fn differs(&mut self, place: &Place, text: &str) {
        self.differences += 1;
        if self.differences == 1 {
            println!("first difference, {place}:\n{text}");
        }
        let part = self.progress.part;
        if self.firsts.last().map(|first| first.0) != Some(part) {
            self.firsts.push((part, place.clone()));
        }
    }

    pub fn check_call(&mut self, checked: Checked<()>, place: &Place, program: &Program) {
        if let Err(difference) = checked {
            let text = format!("{difference}{}", show(program));
            self.differs(place, &text);
        }
    }
}

/// What differs between the machines here: how to count, and what only a core has.
pub trait Compared: Machine + Fields {
    fn counts(comparison: &mut Comparison) -> &mut Machines;
    fn instructions(pair: &Pair<Self>, used: u64) -> u64;
    /// The number of the phase that a good machine without a stop is in, if it has phases.
    fn phase(pair: &Pair<Self>) -> Option<u32>;
    /// The m of the multiply that the next cycle ends, if it ends one.
    fn multiplied(pair: &Pair<Self>) -> Option<u32>;
    /// Moves the machine near its last cycle, if it counts them.
    fn near_the_end(pair: &mut Pair<Self>, random: &mut Random);
    /// Settles the machine on the first `lent` bytes, if it can be between boundaries.
    fn settle(counts: &mut Machines, pair: &mut Pair<Self>, lent: usize) -> Checked<()>;
}

/// Settles a core and counts it: the answer and the cycles used.
pub fn counted_settle(
    counts: &mut Machines,
    pair: &mut Pair<Core>,
    lent: usize,
) -> Checked<(u32, u64)> {
    let phase = Core::phase(pair);
    let (answer, used) = pair.settle(lent)?;
    counts.settled(pair, phase, answer, used);
    Ok((answer, used))
}

impl Compared for Core {
    fn counts(comparison: &mut Comparison) -> &mut Machines {
        &mut comparison.counts.core
    }

    fn instructions(pair: &Pair<Core>, _: u64) -> u64 {
        pair.expected.as_ref().map_or(0, |core| core.retired)
    }

    fn phase(pair: &Pair<Core>) -> Option<u32> {
        (pair.product[CORE_STOP] == 0).then_some(pair.product[CORE_PHASE])
    }

    fn multiplied(pair: &Pair<Core>) -> Option<u32> {
        let core = pair.expected.as_ref()?;
        let Instruction::Multiply(it) = decode(core.ix?) else {
            return None;
        };
        let m = cycles_by_rs(*core.r.get(it.rs)?);
        (core.phase == Phase::Step(m + 1)).then_some(m)
    }

    fn near_the_end(pair: &mut Pair<Core>, random: &mut Random) {
        let cycles = (1u64 << 40) - u64::from(random.below(600));
        pair.set_all(&long(CORE_CYCLES, cycles));
    }

    fn settle(counts: &mut Machines, pair: &mut Pair<Core>, lent: usize) -> Checked<()> {
        counted_settle(counts, pair, lent).map(|_| ())
    }
}

impl Compared for Plain {
    fn counts(comparison: &mut Comparison) -> &mut Machines {
        &mut comparison.counts.plain
    }

    fn instructions(_: &Pair<Plain>, used: u64) -> u64 {
        used
    }

    fn phase(_: &Pair<Plain>) -> Option<u32> {
        None
    }

    fn multiplied(_: &Pair<Plain>) -> Option<u32> {
        None
    }

    fn near_the_end(_: &mut Pair<Plain>, _: &mut Random) {}

    fn settle(_: &mut Machines, _: &mut Pair<Plain>, _: usize) -> Checked<()> {
        Ok(())
    }
}
