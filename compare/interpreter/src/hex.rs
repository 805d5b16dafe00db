//! Images as Intel HEX (request 4): a reader of whole texts, and a writer line by line.

use crate::answers::{length_is_bad, BEYOND, LENGTH, NO_END, UNSOUND};
use std::io::BufRead;

#[derive(Clone, Copy, Debug, PartialEq, Eq)]
pub struct Refused {
    pub number: u32,
    /// The line refused, from 1, for 41 and 42; how many lines the text has for 43; 0 for 1.
    pub line: usize,
}

/// The record types that are taken.
const DATA: u8 = 0;
const END: u8 = 1;
const UPPER_HALF: u8 = 4;

/// The most bytes that a record has: count, address, type, data, sum.
const MOST_BYTES: usize = 1 + 2 + 1 + 255 + 1;

/// "16 data bytes a record written".
const WRITTEN: usize = 16;

/// A sound record.
enum Record<'a> {
    Data { address: u16, bytes: &'a [u8] },
    UpperHalf(u16),
    End,
}

/// Loads the text's data. Refused, the memory is all 0, except that 1 leaves it alone.
pub fn read(text: &[u8], memory: &mut [u8]) -> Result<(), Refused> {
    if length_is_bad(memory.len() as u64) {
        return Err(Refused {
            number: LENGTH,
            line: 0,
        });
    }
    // "Bytes no record names are 0".
    memory.fill(0);
    let result = load(text, memory);
    if result.is_err() {
        memory.fill(0);
    }
    result
}

fn load(text: &[u8], memory: &mut [u8]) -> Result<(), Refused> {
    let mut buffer = [0; MOST_BYTES];
    let mut upper = 0;
    let mut line = 0;
    for digits in lines(text) {
        line += 1;
        let refused = |number| Refused { number, line };
        match record(digits, &mut buffer).ok_or(refused(UNSOUND))? {
            Record::Data { address, bytes } => {
                put(memory, upper + u64::from(address), bytes).ok_or(refused(BEYOND))?
            }
            Record::UpperHalf(half) => upper = u64::from(half) << 16,
            // "text after the end record is ignored"
            Record::End => return Ok(()),
        }
    }
    Err(Refused {
        number: NO_END,
        line,
    })
}

/// The lines without their ends: "LF (written), CR LF or with the text (an empty rest is no line)".
/// A CR elsewhere stays, and is no digit.
fn lines(mut text: &[u8]) -> impl Iterator<Item = &[u8]> {
    std::iter::from_fn(move || {
        let rest = text;
        // Faster than a search byte by byte; of a slice it can't fail.
        let length = text.skip_until(b'\n').ok()?;
        match &rest[..length] {
            [] => None,
            [line @ .., b'\r', b'\n'] | [line @ .., b'\n'] => Some(line),
            line => Some(line),
        }
    })
}

/// The record of a line, its bytes in the buffer, or nothing where the line isn't sound.
fn record<'a>(line: &[u8], buffer: &'a mut [u8; MOST_BYTES]) -> Option<Record<'a>> {
    let record = bytes(line.strip_prefix(b":")?, buffer)?;
    let sum = record.iter().fold(0u8, |sum, &byte| sum.wrapping_add(byte));
    if sum != 0 {
        return None;
    }
    let [count, high, low, kind, data @ .., _] = record else {
        return None;
    };
    if data.len() != usize::from(*count) {
        return None;
    }
    let address = u16::from_be_bytes([*high, *low]);
    // "types 01 and 04 have 0 and 2 data bytes and address 0000"
    match (*kind, address, data) {
        (DATA, address, bytes) => Some(Record::Data { address, bytes }),
        (END, 0, []) => Some(Record::End),
        (UPPER_HALF, 0, &[high, low]) => Some(Record::UpperHalf(u16::from_be_bytes([high, low]))),
        _ => None,
    }
}

/// The bytes that pairs of digits name, or nothing where some are no digits, one has no partner, or
/// there are too many for a record.
fn bytes<'a>(digits: &[u8], buffer: &'a mut [u8; MOST_BYTES]) -> Option<&'a [u8]> {
    let pairs = digits.chunks_exact(2);
    if !pairs.remainder().is_empty() {
        return None;
    }
    let bytes = buffer.get_mut(..pairs.len())?;
    let mut seen = 0;
    for (byte, pair) in bytes.iter_mut().zip(pairs) {
        let (high, low) = (value(pair[0]), value(pair[1]));
        seen |= high | low;
        *byte = high << 4 | low;
    }
    (seen & NO_DIGIT == 0).then_some(bytes)
}

/// In the value of a byte that is no digit.
const NO_DIGIT: u8 = 0x80;

/// A digit's value. A table, as random digits are hard to foretell for branches.
fn value(byte: u8) -> u8 {
    const VALUES: [u8; 256] = {
        let mut values = [NO_DIGIT; 256];
        let mut value = 0;
        while value < 16 {
            values[b"0123456789ABCDEF"[value] as usize] = value as u8;
            values[b"0123456789abcdef"[value] as usize] = value as u8;
            value += 1;
        }
        values
    };
    VALUES[usize::from(byte)]
}

/// Puts data into memory, or nothing where a byte is beyond it. "addresses don't wrap", and a record
/// of no data is nowhere.
fn put(memory: &mut [u8], address: u64, bytes: &[u8]) -> Option<()> {
    if bytes.is_empty() {
        return Some(());
    }
    let end = address + bytes.len() as u64;
    if end > memory.len() as u64 {
        return None;
    }
    memory[address as usize..end as usize].copy_from_slice(bytes);
    Some(())
}

/// The line of this number with its LF; nothing past the end record's. Refused by 1 alone.
pub fn line(memory: &[u8], number: u32) -> Result<Vec<u8>, u32> {
    if length_is_bad(memory.len() as u64) {
        return Err(LENGTH);
    }
    let number = number as usize;
    let mut records = memory.chunks(WRITTEN);
    let end = records.len();
    let mut line = Vec::new();
    if let Some(bytes) = records.nth(number) {
        write(&mut line, (WRITTEN * number) as u16, DATA, bytes);
    } else if number == end {
        write(&mut line, 0, END, &[]);
    }
    Ok(line)
}

/// All lines of the memory after one another.
pub fn text(memory: &[u8]) -> Result<Vec<u8>, u32> {
    if length_is_bad(memory.len() as u64) {
        return Err(LENGTH);
    }
    let mut text = Vec::new();
    for (number, bytes) in memory.chunks(WRITTEN).enumerate() {
        write(&mut text, (WRITTEN * number) as u16, DATA, bytes);
    }
    write(&mut text, 0, END, &[]);
    Ok(text)
}

/// Writes a record and its LF.
fn write(text: &mut Vec<u8>, address: u16, kind: u8, data: &[u8]) {
    let [high, low] = address.to_be_bytes();
    let head = [data.len() as u8, high, low, kind];
    let mut sum = 0u8;
    text.reserve(1 + 2 * (head.len() + data.len() + 1) + 1);
    text.push(b':');
    for &byte in head.iter().chain(data) {
        sum = sum.wrapping_add(byte);
        write_byte(text, byte);
    }
    write_byte(text, sum.wrapping_neg());
    text.push(b'\n');
}

fn write_byte(text: &mut Vec<u8>, byte: u8) {
    let digit = |value: u8| b"0123456789ABCDEF"[usize::from(value)];
    text.extend_from_slice(&[digit(byte >> 4), digit(byte & 15)]);
}
