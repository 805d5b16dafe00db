//! Lengths of memory that 1 refuses whatever the text, and all classes of those it takes.

use super::file::HexFile;
use super::lines::{data, filler, small, text, whole, END};

pub fn files() -> Vec<HexFile> {
    let mut files = Vec::new();
    for length in BAD {
        for (what, text) in texts() {
            files.push(HexFile::bad_length(length, what, text));
        }
    }
    files.extend(allowed());
    files
}

/// The last are allowed ones modulo 2^16.
const BAD: [usize; 27] = [
    0, 1, 2, 3, 4, 8, 12, 13, 15, 17, 18, 19, 21, 22, 23, 30, 31, 33, 255, 65_533, 65_535, 65_537,
    65_538, 65_540, 65_552, 65_600, 131_072,
];

fn texts() -> Vec<(&'static str, Vec<u8>)> {
    vec![
        ("a good text", text(&small())),
        ("an end record", END.into()),
        ("a line that isn't sound", whole(&[":00"])),
        ("data beyond", whole(&[data(0xFFFF, &filler(200))])),
        ("no end record", text(&[data(0, &[1])])),
        ("an empty text", Vec::new()),
    ]
}

fn allowed() -> Vec<HexFile> {
    let mut files = Vec::new();
    for length in [
        16, 20, 24, 28, 32, 36, 64, 256, 1000, 32_768, 65_528, 65_532, 65_536,
    ] {
        let beside = format!("memory of {length}");
        files.push(HexFile::sound(format!("an end record, {beside}"), END).lent(length));
        files.push(HexFile::endless(0, format!("an empty text, {beside}"), "").lent(length));
        files.push(HexFile::unsound(1, format!("an empty line, {beside}"), "\n").lent(length));
        let beyond = whole(&[data(0xFFFF, &[1, 2])]);
        files.push(HexFile::beyond(1, format!("data beyond, {beside}"), beyond).lent(length));
    }
    files
}
