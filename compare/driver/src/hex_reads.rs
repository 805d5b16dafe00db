//! One text of Intel HEX, read by both readers into memories that held the same.

use crate::comparison::{Comparison, Place};
use crate::counts::{Hex, HexReads};
use crate::difference::{readable, row};
use crate::hex_archive::hex_read;
use crate::pair::BEYOND;
use interpreter::answers::FINE;
use interpreter::hex::{self, Refused};

/// Stands right behind the text, where a reader that goes on past it would take it.
const BEHIND: &[u8] = b"\n:00000001FF\n";

/// What the memory holds before the call. No byte of it is 0, so that whatever is left shows.
#[derive(Clone, Copy)]
pub enum Old {
    Rubbish,
    Ones,
}

impl Old {
    fn bytes(self, count: usize) -> Vec<u8> {
        match self {
            Old::Rubbish => (0..count).map(|place| (31 * place) as u8 | 1).collect(),
            Old::Ones => vec![0xFF; count],
        }
    }

    fn name(self) -> &'static str {
        match self {
            Old::Rubbish => "rubbish",
            Old::Ones => "FF everywhere",
        }
    }
}

pub struct Reading<'a> {
    /// What the text is, for whoever reads of a difference.
    pub topic: &'a str,
    pub text: &'a [u8],
    /// The memory's.
    pub length: usize,
    pub old: Old,
}

/// Counts it among its kind: what memory then holds, unless the two differ.
pub fn read(
    comparison: &mut Comparison,
    place: &Place,
    reading: &Reading,
    kind: fn(&mut Hex) -> &mut HexReads,
) -> Option<Vec<u8>> {
    let counts = kind(&mut comparison.counts.hex);
    counts.texts += 1;
    match reading.compare() {
        Ok((answer, memory)) => {
            *counts.answers.entry(answer).or_default() += 1;
            Some(memory)
        }
        Err(text) => {
            comparison.differs(place, &text);
            None
        }
    }
}

/// What a reader left: the memory with the bytes beyond it.
struct Left {
    answer: u32,
    memory: Vec<u8>,
}

impl Reading<'_> {
    /// Reads it on both sides: the answer and the memory, or what differs.
    fn compare(&self) -> Result<(u32, Vec<u8>), String> {
        let old = self.old.bytes(self.length + BEYOND);
        let (refused, expected) = self.interpreter(old.clone());
        let mut text = [self.text, BEHIND].concat();
        let mut product = self.product(&mut text, old);
        let (lent, behind) = text.split_at(self.text.len());
        let kept = lent == self.text && behind == BEHIND;
        if kept && product.answer == expected.answer && product.memory == expected.memory {
            product.memory.truncate(self.length);
            return Ok((product.answer, product.memory));
        }
        Err(self.difference(&product, &expected, refused, kept))
    }

    fn product(&self, text: &mut [u8], mut memory: Vec<u8>) -> Left {
        let text = &mut text[..self.text.len()];
        let answer = hex_read(text, &mut memory[..self.length]);
        Left { answer, memory }
    }

    /// Also where it is refused, if it is.
    fn interpreter(&self, mut memory: Vec<u8>) -> (Option<Refused>, Left) {
        let refused = hex::read(self.text, &mut memory[..self.length]).err();
        let answer = refused.map_or(FINE, |refused| refused.number);
        (refused, Left { answer, memory })
    }

    fn difference(
        &self,
        product: &Left,
        expected: &Left,
        refused: Option<Refused>,
        kept: bool,
    ) -> String {
        let mut text = format!(
            "text read: {}\nmemory of {} bytes, before it {}\nanswer: product {}, interpreter {}\n",
            self.topic,
            self.length,
            self.old.name(),
            product.answer,
            expected.answer
        );
        text += &memories(&product.memory, &expected.memory);
        if !kept {
            text += "the product changed the text\n";
        }
        if let Some(line) = refused.and_then(|refused| self.line(refused.line)) {
            text += &format!("refused by the interpreter:\n{}", row(line));
        }
        text += &format!(
            "text of {} bytes:\n{}",
            self.text.len(),
            readable(self.text)
        );
        text
    }

    /// The text's line of this number, from 1.
    fn line(&self, number: usize) -> Option<&[u8]> {
        let mut lines = self.text.split_inclusive(|&byte| byte == b'\n');
        lines.nth(number.checked_sub(1)?)
    }
}

/// The first byte that differs, and how many do.
fn memories(product: &[u8], expected: &[u8]) -> String {
    let both = product.iter().zip(expected).enumerate();
    let mut others = both.filter(|(_, (product, expected))| product != expected);
    match others.next() {
        None => "memory: the same\n".to_string(),
        Some((at, (product, expected))) => format!(
            "memory at {at:X}: product {product:02X}, interpreter {expected:02X}; \
             bytes after it that differ too: {}\n",
            others.count()
        ),
    }
}
