//! What was compared, counted.

use crate::comparison::Compared;
use crate::figures::grouped;
use crate::pair::Pair;
use interpreter::answers::FINE;
use interpreter::pipeline::Core;
use std::collections::BTreeMap;

#[derive(Default)]
pub struct Counts {
    pub core: Machines,
    pub plain: Machines,
    pub writes: Writes,
    pub words: Words,
    pub hex: Hex,
    pub rates: Rates,
}

impl Counts {
    /// The totals, those that are 0 left out.
    pub fn show(&self) -> String {
        let totals = [
            (self.core.used, "cycles of the core"),
            (
                self.core.boundaries,
                "boundaries where its sums came to its cycles",
            ),
            (self.plain.used, "instructions of the plain machine"),
            (self.words.words, "words"),
            (self.words.records, "records of words"),
            (self.rates.cycles, "cycles watched for stores"),
            (self.hex.texts(), "Intel HEX texts"),
            (self.hex.lines, "Intel HEX lines"),
        ];
        let shown: Vec<String> = totals
            .into_iter()
            .filter(|&(total, _)| total > 0)
            .map(|(total, unit)| format!("{} {unit}", grouped(total)))
            .collect();
        match shown.as_slice() {
            [] => "0 cycles".to_string(),
            [only] => only.clone(),
            [first @ .., last] => format!("{} and {last}", first.join(", ")),
        }
    }
}

/// Machines of one kind.
#[derive(Default)]
pub struct Machines {
    pub images: u64,
    pub starts: u64,
    pub runs: u64,
    /// Cycles of the core, instructions of the plain machine.
    pub used: u64,
    /// Runs that used exactly 1, by a budget of 1.
    pub singles: u64,
    /// Instructions of the images: retired by the core, done by the plain machine.
    pub instructions: u64,
    /// Reached from a start, where the product's sums were held to its cycles.
    pub boundaries: u64,
    pub refused: u64,
    pub pokes: u64,
    pub tampered: u64,
    /// Runs of tampered records that answered 11.
    pub tampered_bad: u64,
    /// Of starts and runs.
    pub answers: [u64; 32],
    /// Of cores alone.
    pub settles: Settles,
    /// Single cycles by the number of the phase that they began in: 19 is step 18, the last.
    pub phases: [u64; 20],
    /// Multiplies whose last cycle was a single one, by their m less 1.
    pub multiplies: [u64; 16],
}

impl Machines {
    pub fn started(&mut self, answer: u32) {
        self.starts += 1;
        self.answers[answer as usize % 32] += 1;
    }

    pub fn saw<M: Compared>(&mut self, pair: &Pair<M>, answer: u32, used: u64, budget: u64) {
        self.runs += 1;
        self.reached(pair, used);
        self.singles += u64::from(budget == 1 && used == 1);
        self.refused += u64::from((1..=13).contains(&answer));
        self.answers[answer as usize % 32] += 1;
    }

    /// What a call used on its way to where the machine is now.
    fn reached<M: Compared>(&mut self, pair: &Pair<M>, used: u64) {
        self.used += used;
        self.boundaries += u64::from(used > 0 && pair.sums_hold().is_some());
    }

    /// A settle that began in this phase, and what came of it.
    pub fn settled(&mut self, pair: &Pair<Core>, phase: Option<u32>, answer: u32, used: u64) {
        self.reached(pair, used);
        let settles = &mut self.settles;
        settles.calls += 1;
        settles.cycles += used;
        settles.refused += u64::from((1..=13).contains(&answer));
        settles.answers[answer as usize % 32] += 1;
        if let Some(phase) = phase {
            let place = phase.min(19) as usize;
            settles.phases[place] += u64::from(answer == 0);
            settles.limited[place] += u64::from(answer == 13);
        }
    }

    /// Before a run of this budget.
    pub fn sees<M: Compared>(&mut self, pair: &Pair<M>, budget: u64) {
        if let (1, Some(phase)) = (budget, M::phase(pair)) {
            self.phases[phase.min(19) as usize] += 1;
            if let Some(m) = M::multiplied(pair) {
                self.multiplies[m as usize - 1] += 1;
            }
        }
    }
}

/// Settles of cores, also of those that were tampered with.
#[derive(Default)]
pub struct Settles {
    pub calls: u64,
    pub cycles: u64,
    pub refused: u64,
    pub answers: [u64; 32],
    /// By the number of the phase that they began in, as above: those that answered 0, and 13.
    pub phases: [u64; 20],
    pub limited: [u64; 20],
}

/// Runs of this many cycles count as long after a rewrite.
pub const LONG: u64 = 300;

/// Cores whose memory got other words where they had fetched theirs.
#[derive(Default)]
pub struct Writes {
    pub images: u64,
    pub copies: u64,
    pub words: u64,
    /// Runs that began on a boundary where the word at A, at A+4, was not the one of IX, of IR1.
    pub other_ix: u64,
    pub other_ir1: u64,
    /// Settles between writes and run, and those of them that began in the middle.
    pub settles: u64,
    pub settles_midway: u64,
    pub runs: u64,
    pub cycles: u64,
    /// Runs that used LONG cycles or more, and those of them that began as above.
    pub long: u64,
    pub long_other: u64,
}

/// Cores that are asked what they store, and runs that watch a window.
#[derive(Default)]
pub struct Rates {
    /// Answers that the coming cycle stores nothing, a byte, a word.
    pub told: [u64; 3],
    /// Such cycles done with what was told as the window.
    pub as_told: u64,
    pub images: u64,
    pub runs: u64,
    /// Runs held to the product's own unwatched ones as well, of all of which each has its turn.
    pub both: u64,
    pub beside: u64,
    pub cycles: u64,
    pub singles: u64,
    pub stores: u64,
    /// Summaries that no run has made.
    pub summaries: u64,
    pub tampered: u64,
    pub tampered_bad: u64,
    pub answers: BTreeMap<u32, u64>,
}

impl Rates {
    /// A core's answer: where it stores, and how many bytes.
    pub fn asks(&mut self, (_, bytes): (u32, u32)) {
        self.told[match bytes {
            0 => 0,
            1 => 1,
            _ => 2,
        }] += 1;
    }

    pub fn saw(&mut self, answer: u32, used: u64, budget: u64, stores: u64) {
        self.runs += 1;
        self.cycles += used;
        self.singles += u64::from(budget == 1 && used == 1);
        self.stores += stores;
        *self.answers.entry(answer).or_default() += 1;
    }
}

/// Reader and writer.
#[derive(Default)]
pub struct Words {
    pub words: u64,
    pub records: u64,
    /// What the writer answered: 0 with a word, or 5.
    pub written: u64,
    pub refused: u64,
}

/// Reader and writer of Intel HEX.
#[derive(Default)]
pub struct Hex {
    pub directed: HexReads,
    pub random: HexReads,
    /// What the product wrote.
    pub written: HexReads,
    /// Memories that were to be written.
    pub memories: u64,
    /// Calls for a line: those that wrote one, those that wrote nothing, those refused.
    pub lines: u64,
    pub no_lines: u64,
    pub refused: u64,
}

impl Hex {
    pub fn texts(&self) -> u64 {
        self.directed.texts + self.random.texts + self.written.texts
    }

    /// What a call for a line answered, and how long the line was.
    pub fn wrote(&mut self, answer: u32, written: u32) {
        self.refused += u64::from(answer != FINE);
        self.lines += u64::from(answer == FINE && written > 0);
        self.no_lines += u64::from(answer == FINE && written == 0);
    }
}

/// Texts of one kind.
#[derive(Default)]
pub struct HexReads {
    pub texts: u64,
    pub answers: BTreeMap<u32, u64>,
}
