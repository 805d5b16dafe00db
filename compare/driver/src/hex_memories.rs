//! The lines that both writers make of a memory, and what the readers make of them again.

use crate::comparison::{Comparison, Place};
use crate::hex_archive::{hex_line, Line, HEX_LINE, STALE_BYTE};
use crate::hex_reads::{read, Old, Reading};
use crate::pair::BEYOND;
use interpreter::answers::FINE;
use interpreter::hex;
use interpreter::random::Random;

/// Lengths that no memory has.
const BAD: [usize; 16] = [
    0, 1, 4, 12, 13, 14, 15, 17, 18, 19, 1022, 65_533, 65_535, 65_537, 65_540, 131_072,
];

/// The data bytes of a line.
const BYTES: usize = 16;

/// Every short one, the two longest and bad ones.
pub fn lengths() -> Vec<usize> {
    let good = (16..=1024).step_by(4).chain([65_532, 65_536]);
    good.chain(BAD).collect()
}

/// A memory of random bytes, with others beyond it.
struct Memory {
    length: usize,
    bytes: Vec<u8>,
    /// The product's. It is to stay as the others are.
    product: Vec<u8>,
}

impl Memory {
    fn random(length: usize, random: &mut Random) -> Memory {
        let mut bytes: Vec<u8> = (0..length).map(|_| random.word() as u8).collect();
        bytes.resize(length + BEYOND, 0xEE);
        Memory {
            length,
            product: bytes.clone(),
            bytes,
        }
    }

    fn lent(&self) -> &[u8] {
        &self.bytes[..self.length]
    }

    /// The line of this number as the product writes it, and whether the memory stayed.
    fn product_line(&mut self, number: u32) -> (Line, bool) {
        let line = hex_line(&mut self.product[..self.length], number);
        let kept = self.product == self.bytes;
        if !kept {
            self.product.copy_from_slice(&self.bytes);
        }
        (line, kept)
    }
}

/// Every line of a memory of random bytes, then their text, read back.
pub fn one(comparison: &mut Comparison, length: usize, random: &mut Random) {
    let mut memory = Memory::random(length, random);
    let place = Place::Within(format!("Intel HEX of a memory of {length} bytes"));
    comparison.counts.hex.memories += 1;
    let end = length.div_ceil(BYTES) as u32;
    let mut lines = Vec::new();
    for number in 0..=end + 2 {
        lines.push(line(comparison, &place, &mut memory, number));
    }
    for number in far(end, random) {
        line(comparison, &place, &mut memory, number);
    }
    let Ok(text) = hex::text(memory.lent()) else {
        return;
    };
    if lines.concat() != text {
        comparison.differs(&place, "its lines one after another are not its text");
    }
    lines.truncate(end as usize + 1);
    read_back(comparison, &place, &memory, &lines, random);
}

/// Numbers whose address is near one inside modulo 2^16, 2^28, 2^32 or as a number with a sign, and
/// others.
fn far(end: u32, random: &mut Random) -> Vec<u32> {
    let mut numbers = vec![u32::MAX, u32::MAX - 1, u32::MAX >> 1];
    for power in [8, 12, 16, 20, 24, 27, 28, 29, 30, 31] {
        let near = [0, 1, end.saturating_sub(1), end, end + 1];
        numbers.extend(near.map(|number| (1 << power) + number));
        numbers.push((1 << power) - 1);
    }
    numbers.extend((1..16).map(|high| high << 28));
    numbers.extend((0..8).map(|_| random.word()));
    numbers
}

/// Compares the line of this number: what the product wrote of it.
fn line(comparison: &mut Comparison, place: &Place, memory: &mut Memory, number: u32) -> Vec<u8> {
    let (product, kept) = memory.product_line(number);
    let expected = wanted(memory.lent(), number);
    comparison.counts.hex.wrote(product.answer, product.written);
    if product != expected || !kept {
        let text = difference(memory, number, &product, &expected, kept);
        comparison.differs(place, &text);
    }
    let written = (product.written as usize).min(HEX_LINE);
    product.out[..written].to_vec()
}

/// The interpreter's line, in front of what stood there before.
fn wanted(memory: &[u8], number: u32) -> Line {
    let (answer, text) = match hex::line(memory, number) {
        Ok(text) => (FINE, text),
        Err(number) => (number, Vec::new()),
    };
    let mut out = [STALE_BYTE; HEX_LINE + BEYOND];
    out[..text.len()].copy_from_slice(&text);
    Line {
        answer,
        written: text.len() as u32,
        out,
    }
}

fn difference(memory: &Memory, number: u32, product: &Line, expected: &Line, kept: bool) -> String {
    let data = memory.lent().chunks(BYTES).nth(number as usize);
    let mut text = format!(
        "line {number} of a memory of {} bytes, its data {:02X?}\n\
         answer: product {}, interpreter {}; written: product {}, interpreter {}\n\
         line and what is behind it, by the product:\n    {}\nby the interpreter:\n    {}\n",
        memory.length,
        data.unwrap_or_default(),
        product.answer,
        expected.answer,
        product.written,
        expected.written,
        product.out.escape_ascii(),
        expected.out.escape_ascii()
    );
    if !kept {
        text += "the product changed the memory\n";
    }
    text
}

/// The lines as they are and as others may send them are to give the memory again.
fn read_back(
    comparison: &mut Comparison,
    place: &Place,
    memory: &Memory,
    lines: &[Vec<u8>],
    random: &mut Random,
) {
    let shuffled = shuffled(lines, random);
    for (topic, text) in [
        ("as it is", lines.concat()),
        ("with CR LF", with_cr(&lines.concat())),
        ("in lower case", lines.concat().to_ascii_lowercase()),
        ("its data in random order", shuffled.concat()),
        (
            "with CR LF, in lower case, its data in random order",
            with_cr(&shuffled.concat()).to_ascii_lowercase(),
        ),
    ] {
        let reading = Reading {
            topic: &format!("what the product wrote, {topic}"),
            text: &text,
            length: memory.length,
            old: Old::Rubbish,
        };
        match read(comparison, place, &reading, |hex| &mut hex.written) {
            Some(back) if back != memory.lent() => {
                comparison.differs(place, &format!("{topic}: it is not the memory again"));
            }
            _ => {}
        }
    }
}

fn with_cr(text: &[u8]) -> Vec<u8> {
    let lines = text.split_inclusive(|&byte| byte == b'\n');
    let line = |line: &[u8]| [&line[..line.len() - 1], b"\r\n"].concat();
    lines.flat_map(line).collect()
}

/// The lines in random order, but for the last.
fn shuffled(lines: &[Vec<u8>], random: &mut Random) -> Vec<Vec<u8>> {
    let mut lines = lines.to_vec();
    for count in (2..lines.len()).rev() {
        lines.swap(count - 1, random.below(count as u32) as usize);
    }
    lines
}
