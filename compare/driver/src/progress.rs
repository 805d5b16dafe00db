//! How far the comparison is, for whoever watches it.

use crate::figures::grouped;
use std::time::{Duration, Instant};

const SILENCE: Duration = Duration::from_secs(5);

pub struct Progress {
    began: Instant,
    told: Instant,
    parts: usize,
    /// The part under way: its number from 1 on, its name, how much it does and of what.
    pub part: usize,
    name: String,
    total: u64,
    unit: &'static str,
}

impl Progress {
    pub fn new(parts: usize) -> Progress {
        let now = Instant::now();
        Progress {
            began: now,
            told: now,
            parts,
            part: 0,
            name: String::new(),
            total: 0,
            unit: "",
        }
    }

    pub fn begin(&mut self, name: &str, total: u64, unit: &'static str) {
        self.part += 1;
        self.name = name.to_string();
        self.total = total;
        self.unit = unit;
    }

    /// Whether it is time for another line.
    pub fn due(&self) -> bool {
        self.told.elapsed() >= SILENCE
    }

    pub fn tell(&mut self, done: u64, so_far: &str) {
        self.told = Instant::now();
        println!(
            "{:>4} s: part {} of {}, {}: {} of {} {}; so far {so_far}",
            self.seconds(),
            self.part,
            self.parts,
            self.name,
            grouped(done),
            grouped(self.total),
            self.unit
        );
    }

    pub fn seconds(&self) -> u64 {
        self.began.elapsed().as_secs()
    }
}
