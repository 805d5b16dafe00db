//! One text, with the memory lent for it.

use std::fmt::Display;

/// The length of memory where a topic doesn't say another.
const LENGTH: usize = 32;

#[derive(Clone, Debug, PartialEq, Eq)]
pub struct HexFile {
    /// Of a directed file it begins with what reading it comes to: `0: `, `1: `, `41, line 2: `,
    /// `42, line 2: ` or `43, 2 lines: `.
    pub topic: String,
    pub text: Vec<u8>,
    /// The bytes of memory lent.
    pub length: usize,
}

impl HexFile {
    pub(super) fn sound(what: impl Display, text: impl Into<Vec<u8>>) -> HexFile {
        HexFile::new(format!("0: {what}"), text)
    }

    /// 41 for this line, from 1.
    pub(super) fn unsound(line: usize, what: impl Display, text: impl Into<Vec<u8>>) -> HexFile {
        HexFile::new(format!("41, line {line}: {what}"), text)
    }

    /// 42 for this line.
    pub(super) fn beyond(line: usize, what: impl Display, text: impl Into<Vec<u8>>) -> HexFile {
        HexFile::new(format!("42, line {line}: {what}"), text)
    }

    /// 43 for a text of so many lines.
    pub(super) fn endless(lines: usize, what: impl Display, text: impl Into<Vec<u8>>) -> HexFile {
        HexFile::new(format!("43, {lines} lines: {what}"), text)
    }

    /// 1 for the length, whatever the text.
    pub(super) fn bad_length(
        length: usize,
        what: impl Display,
        text: impl Into<Vec<u8>>,
    ) -> HexFile {
        HexFile::new(format!("1: {what}, {length} bytes"), text).lent(length)
    }

    pub(super) fn new(topic: impl Into<String>, text: impl Into<Vec<u8>>) -> HexFile {
        HexFile {
            topic: topic.into(),
            text: text.into(),
            length: LENGTH,
        }
    }

    pub(super) fn lent(self, length: usize) -> HexFile {
        HexFile { length, ..self }
    }
}
