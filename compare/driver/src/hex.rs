//! Reader and writer of Intel HEX.

use crate::arguments::Asked;
use crate::comparison::{Comparison, Place};
use crate::hex_memories;
use crate::hex_reads::{read, Old, Reading};
use interpreter::hex_files::{self, HexFile};
use interpreter::random::Random;
use std::collections::BTreeSet;

const RANDOM_FILES: u64 = 200_000;

/// The least and the most that a memory has.
const LEAST: usize = 16;
const MOST: usize = 65_536;

/// Lengths that no memory has, whatever the file.
const BAD: [usize; 7] = [0, 4, 12, 15, 18, 65_537, 65_540];

pub fn all(comparison: &mut Comparison, first: u64) {
    let files = hex_files::directed();
    let memories = hex_memories::lengths();
    let total = files.len() as u64 + RANDOM_FILES + memories.len() as u64;
    comparison.begin("Intel HEX", total, "files and memories");
    let mut done = 0;
    for (number, file) in files.iter().enumerate() {
        directed(comparison, number, file);
        done += 1;
        comparison.reached(done);
    }
    for number in 0..RANDOM_FILES {
        one(comparison, first.wrapping_add(number));
        done += 1;
        comparison.reached(done);
    }
    let mut random = Random::new(first);
    for length in memories {
        hex_memories::one(comparison, length, &mut random);
        done += 1;
        comparison.reached(done);
    }
}

/// A directed file into memories of several lengths, and of its own with two contents.
fn directed(comparison: &mut Comparison, number: usize, file: &HexFile) {
    let place = Place::Within(format!("directed Intel HEX file {number}"));
    let own = (file.length, Old::Ones);
    let others = lengths(file.length, number);
    let others = others.into_iter().map(|length| (length, Old::Rubbish));
    for (length, old) in others.chain([own]) {
        let reading = Reading {
            topic: &file.topic,
            text: &file.text,
            length,
            old,
        };
        read(comparison, &place, &reading, |hex| &mut hex.directed);
    }
}

/// The file's, those beside it, the least and the most, and two bad ones.
fn lengths(own: usize, number: usize) -> BTreeSet<usize> {
    let beside = [own.saturating_sub(4), own + 4, own + 1 + number % 3];
    let others = [own, LEAST, MOST, BAD[number % BAD.len()]];
    beside.into_iter().chain(others).collect()
}

/// A random file into a memory of its length, and into one of another.
pub fn one(comparison: &mut Comparison, number: u64) {
    let mut random = Random::new(number);
    let file = hex_files::random(&mut random);
    let other = other_length(file.length, &mut random);
    let place = Place::Alone(Asked::Hex(number));
    for length in [file.length, other] {
        let reading = Reading {
            topic: &format!("file {number}, {}", file.topic),
            text: &file.text,
            length,
            old: Old::Rubbish,
        };
        read(comparison, &place, &reading, |hex| &mut hex.random);
    }
}

/// Mostly one beside it, that a record may just pass or not.
fn other_length(own: usize, random: &mut Random) -> usize {
    let (less, more, bad) = (own.saturating_sub(4).max(LEAST), own + 4, own + 2);
    random.pick(&[less, less, more, more, more, LEAST, MOST, bad])
}
