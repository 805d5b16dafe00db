//! Random files: good ones, of which half are then damaged.

use super::damage::damage;
use super::file::HexFile;
use super::lines::{data, upper, END};
use crate::random::Random;

/// A file that is good, or was before one to three edits.
pub fn random(random: &mut Random) -> HexFile {
    let length = length(random);
    // For a bad length it is a file for the nearest good one.
    let mut lines = good(random, (length & !3).clamp(16, 65_536));
    let edits = if random.chance(1, 2) {
        0
    } else {
        1 + random.below(3)
    };
    for _ in 0..edits {
        damage(random, &mut lines);
    }
    HexFile::new(format!("random, {edits} edits"), lines.concat()).lent(length)
}

fn length(random: &mut Random) -> usize {
    match random.below(40) {
        0 => random.pick(&[0, 4, 12, 18, 65_540]),
        1..=4 => random.pick(&[65_532, 65_536]),
        5..=12 => 16 + 4 * random.below(147) as usize,
        _ => random.pick(&[16, 20, 24, 28, 32, 36, 256]),
    }
}

/// The lines of a good file with their ends; what follows the end record may be anything.
fn good(random: &mut Random, length: usize) -> Vec<Vec<u8>> {
    let mut records = if random.chance(1, 10) {
        all(random, length)
    } else {
        some(random, length)
    };
    records.push(END.into());
    let mut lines = dressed(random, records);
    let mut behind = if random.chance(1, 3) {
        behind_the_end(random)
    } else {
        Vec::new()
    };
    if behind.is_empty() && random.chance(1, 3) {
        if let Some(last) = lines.last_mut() {
            last.truncate(END.len());
        }
    }
    lines.append(&mut behind);
    lines
}

/// Records for the whole memory, or the last of it if it is long, in order or not.
fn all(random: &mut Random, length: usize) -> Vec<String> {
    let count = random.pick(&[1, 4, 16, 16, 16, 32, 255]);
    let first = length.saturating_sub(2000);
    let places = (first..length).step_by(count);
    let record = |place| bytes_at(random, place, count.min(length - place));
    let mut records: Vec<String> = places.map(record).collect();
    if random.chance(1, 3) {
        records.reverse();
    }
    records
}

fn some(random: &mut Random, length: usize) -> Vec<String> {
    let mut records = Vec::new();
    for _ in 0..random.pick(&[0, 1, 2, 3, 4, 5, 8, 13, 40]) {
        match random.below(12) {
            0 => records.push(upper(0)),
            1 => {
                // Past the memory and back, with no data between.
                records.push(upper(random.word() as u16));
                records.push(data(random.word() as u16, &[]));
                records.push(upper(0));
            }
            2 => records.push(data(random.word() as u16, &[])),
            _ => records.push(inside(random, length)),
        }
    }
    if random.chance(1, 10) {
        records.push(upper(random.word() as u16));
    }
    records
}

/// A record in some place inside, often at the memory's start or end.
fn inside(random: &mut Random, length: usize) -> String {
    let any = random.below(256);
    let count = random.pick(&[1, 2, 3, 4, 8, 16, 16, 16, 32, 255, any]) as usize;
    let count = count.min(length);
    let last = length - count;
    let place = match random.below(6) {
        0 => 0,
        1 => last,
        _ => random.below(last as u32 + 1) as usize,
    };
    bytes_at(random, place, count)
}

fn bytes_at(random: &mut Random, place: usize, count: usize) -> String {
    let same = random.chance(1, 8).then(|| random.pick(&[0, 0xFF]));
    let byte = |_| same.unwrap_or(random.word() as u8);
    let bytes: Vec<u8> = (0..count).map(byte).collect();
    data(place as u16, &bytes)
}

/// The records in upper, lower or mixed case, with ends of one kind or of both.
fn dressed(random: &mut Random, records: Vec<String>) -> Vec<Vec<u8>> {
    let lower = random.pick(&[0, 0, 1, 2, 4]);
    let by_digit = random.chance(1, 2);
    let cr = random.pick(&[0, 0, 2, 4]);
    let mut lines = Vec::new();
    for record in records {
        let mut line = record.into_bytes();
        let whole = random.chance(lower, 4);
        for digit in &mut line {
            let this = if by_digit {
                random.chance(lower, 4)
            } else {
                whole
            };
            if this {
                digit.make_ascii_lowercase();
            }
        }
        line.extend(if random.chance(cr, 4) {
            &b"\r\n"[..]
        } else {
            b"\n"
        });
        lines.push(line);
    }
    lines
}

/// Records, and lines of anything.
fn behind_the_end(random: &mut Random) -> Vec<Vec<u8>> {
    let mut lines = Vec::new();
    for _ in 0..1 + random.below(3) {
        let mut line = match random.below(4) {
            0 => END.into(),
            1 => inside(random, 65_536).into_bytes(),
            2 => upper(random.word() as u16).into_bytes(),
            _ => (0..random.below(30)).map(|_| random.word() as u8).collect(),
        };
        if random.chance(7, 8) {
            line.push(b'\n');
        }
        lines.push(line);
    }
    lines
}
