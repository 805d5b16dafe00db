//! Reader and writer, word by word.

use crate::archive::{word_read, word_write, RecordArray};
use crate::comparison::{Comparison, Place};
use crate::records::{record_array, word_of, RECORD_NAMES};
use interpreter::random::Random;

/// The strided sample takes every word of this distance; it is odd.
const STRIDE: u32 = 61;
const INTERESTING: u32 = 1 << 20;
/// All of them.
const MULTIPLIES: u32 = 1 << 22;
const NEIGHBOURS: u32 = 1 << 20;
const TAMPERED_RECORDS: u32 = 2_000_000;
/// Those that there are, and some more.
const CLASSES: u32 = 9;

/// The number of Other in a record.
const OTHER: u32 = 4;

pub fn all(comparison: &mut Comparison, seed: u64) {
    let mut random = Random::new(seed);
    let first = random.below(STRIDE);
    let strided = (u32::MAX - first) / STRIDE + 1;
    let total = strided + INTERESTING + 2 * MULTIPLIES + NEIGHBOURS + TAMPERED_RECORDS + CLASSES;
    comparison.begin("words and their records", total.into(), "words and records");
    let place = Place::Within("strided words".to_string());
    for index in 0..strided {
        one_word(comparison, &place, first + index * STRIDE);
    }
    let place = Place::Within("interesting words".to_string());
    for index in 0..INTERESTING {
        one_word(comparison, &place, interesting(index, &mut random));
    }
    let place = Place::Within("multiplies".to_string());
    for index in 0..MULTIPLIES {
        one_word(comparison, &place, multiply(index));
        one_record(comparison, &place, &held_by_other(multiply(index)));
    }
    let place = Place::Within("words beside multiplies".to_string());
    for _ in 0..NEIGHBOURS {
        one_word(comparison, &place, beside(&mut random));
    }
    let place = Place::Within("tampered records of words".to_string());
    for _ in 0..TAMPERED_RECORDS {
        one_record(comparison, &place, &tampered(&mut random));
    }
    let place = Place::Within("empty records of words".to_string());
    for class in 0..CLASSES {
        // All zeros but for the class.
        let mut record = [0; 16];
        record[0] = class;
        one_record(comparison, &place, &record);
    }
}

fn one_word(comparison: &mut Comparison, place: &Place, word: u32) {
    comparison.counts.words.words += 1;
    match check_word(word) {
        Ok(()) => comparison.counts.words.written += 1,
        Err(text) => comparison.differs(place, &text),
    }
    tell(comparison);
}

fn one_record(comparison: &mut Comparison, place: &Place, record: &RecordArray) {
    comparison.counts.words.records += 1;
    match check_record(record) {
        Ok(true) => comparison.counts.words.written += 1,
        Ok(false) => comparison.counts.words.refused += 1,
        Err(text) => comparison.differs(place, &text),
    }
    tell(comparison);
}

/// Now and then only: a look at the clock takes about as long as a word.
fn tell(comparison: &mut Comparison) {
    let words = &comparison.counts.words;
    let done = words.words + words.records;
    if done & 0xFFFF == 0 {
        comparison.reached(done);
    }
}

/// Reads a word, holds its record to the interpreter's decoder and writes it back.
fn check_word(word: u32) -> Result<(), String> {
    let read = word_read(word);
    let wanted = record_array(word);
    if read != wanted {
        return Err(format!("word {word:08X} read\n{}", two(&read, &wanted)));
    }
    match word_write(&read) {
        (0, back) if back == word => Ok(()),
        (answer, back) => Err(format!(
            "word {word:08X} written back: answer {answer}, word {back:08X}"
        )),
    }
}

/// Writes a record: the word that it is the record of, or 5 and 0. Whether it has a word.
fn check_record(record: &RecordArray) -> Result<bool, String> {
    let wanted = word_of(record).map_or((5, 0), |word| (0, word));
    let written = word_write(record);
    if written == wanted {
        return Ok(wanted.0 == 0);
    }
    Err(format!(
        "record written: product {} {:08X}, interpreter {} {:08X}\n{}",
        written.0,
        written.1,
        wanted.0,
        wanted.1,
        two(record, record)
    ))
}

fn two(product: &RecordArray, wanted: &RecordArray) -> String {
    let mut text = format!("{:<22}{:>10}{:>13}\n", "field", "product", "interpreter");
    for (index, name) in RECORD_NAMES.iter().enumerate() {
        text += &format!("{name:<22}{:>10X}{:>13X}\n", product[index], wanted[index]);
    }
    text
}

/// One of 2^20 interesting words: every value of bits 31..20 and 7..4, each with sixteen fillings
/// of the others, the first four of them all zeros, all ones and alternating.
fn interesting(index: u32, random: &mut Random) -> u32 {
    const OTHERS: u32 = 0x000F_FF0F;
    let fixed = index >> 8 << 20 | (index >> 4 & 15) << 4;
    let filling = match index & 15 {
        0 => 0,
        1 => u32::MAX,
        2 => 0x5555_5555,
        3 => 0xAAAA_AAAA,
        _ => random.word(),
    };
    fixed | filling & OTHERS
}

/// One of the 2^22 multiplies: condition, accumulate, S and four registers.
fn multiply(index: u32) -> u32 {
    let (condition, bits) = (index >> 18, index >> 16 & 3);
    let (registers, rm) = (index >> 4 & 0xFFF, index & 15);
    condition << 28 | bits << 20 | registers << 8 | 9 << 4 | rm
}

/// A multiply with one or two of the bits changed that make it one.
fn beside(random: &mut Random) -> u32 {
    let fixed = [4, 5, 6, 7, 22, 23, 24, 25, 26, 27];
    let word = multiply(random.below(MULTIPLIES)) ^ 1 << random.pick(&fixed);
    if random.chance(1, 3) {
        word ^ 1 << random.pick(&fixed)
    } else {
        word
    }
}

/// An Other that holds this word, whatever it is.
fn held_by_other(word: u32) -> RecordArray {
    let mut record = [0; 16];
    record[0] = OTHER;
    record[14] = word;
    record
}

/// The record of any word, of a multiply or of one beside it, or a multiply as another class.
fn before_tampering(random: &mut Random) -> RecordArray {
    let multiply = multiply(random.below(MULTIPLIES));
    match random.below(8) {
        0..=3 => record_array(random.word()),
        4 => record_array(multiply),
        5 => record_array(beside(random)),
        6 => held_by_other(multiply),
        _ => {
            let mut record = record_array(multiply);
            record[0] = random.below(CLASSES);
            record
        }
    }
}

/// A record with some fields set to other values, most of them small.
fn tampered(random: &mut Random) -> RecordArray {
    let mut record = before_tampering(random);
    for _ in 0..=random.below(3) {
        let field = random.below(16) as usize;
        let old = record[field];
        record[field] = match random.below(8) {
            0 => random.word(),
            1 => random.below(40),
            2 => random.below(CLASSES),
            3 => old.wrapping_add(1),
            4 => old ^ 1 << random.below(32),
            5 => random.pick(&[
                15, 16, 31, 32, 255, 256, 0xFFFF, 0x1_0000, 0xFF_FFFF, 0x100_0000,
            ]),
            6 => old | 1 << 31,
            _ => random.below(2),
        };
    }
    record
}
