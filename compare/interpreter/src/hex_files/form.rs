//! A line's form: its colon, what is before and behind the record, digits and pairs too few or too many.

use super::file::HexFile;
use super::lines::{data, named, small, small_with, text, whole, END};

pub fn files() -> Vec<HexFile> {
    let mut files = around();
    files.extend(digits_and_pairs());
    files.extend(inserted());
    files.extend(tails());
    files.extend(others());
    files
}

/// Before the colon.
const BEFORE: [&[u8]; 11] = [
    b" ",
    b"\t",
    b"\0",
    b":",
    b"0",
    b"00",
    b"S",
    b";",
    b"\r",
    b"\x80",
    b"\xEF\xBB\xBF",
];

/// Behind the sum, the end of the line being LF. `00` leaves the sum at 0.
const BEHIND: [&[u8]; 14] = [
    b" ",
    b"\t",
    b"\0",
    b":",
    b"0",
    b"00",
    b"0000",
    b"FF01",
    b"G",
    b"\x80",
    b"\r\r",
    b"\r ",
    b" \r",
    b"; a remark",
];

fn around() -> Vec<HexFile> {
    let mut files = Vec::new();
    for (index, line) in small().iter().enumerate() {
        let mut add = |what: String, line: Vec<u8>| {
            files.push(HexFile::unsound(index + 1, what, small_with(index, line)))
        };
        add("no colon".into(), line[1..].into());
        for odd in BEFORE {
            let what = format!("{} before the colon", odd.escape_ascii());
            add(what, [odd, line.as_bytes()].concat());
        }
        for odd in BEHIND {
            let what = format!("{} behind the sum", odd.escape_ascii());
            add(what, [line.as_bytes(), odd].concat());
        }
        add("the record twice".into(), line.repeat(2).into());
        add("the end record behind".into(), [line, END].concat().into());
    }
    files
}

/// One digit or one pair left out or doubled, in each place.
fn digits_and_pairs() -> Vec<HexFile> {
    let mut files = Vec::new();
    for (index, line) in small().iter().enumerate() {
        let mut add = |what: String, parts: [&str; 3]| {
            let text = small_with(index, parts.concat());
            files.push(HexFile::unsound(index + 1, what, text));
        };
        for place in 0..line.len() {
            let (before, rest) = line.split_at(place);
            let (one, after) = rest.split_at(1);
            add(format!("place {place} left out"), [before, "", after]);
            add(format!("place {place} doubled"), [before, one, rest]);
            if place % 2 == 1 {
                let (pair, after) = rest.split_at(2);
                add(format!("pair at {place} left out"), [before, "", after]);
                add(format!("pair at {place} doubled"), [before, pair, rest]);
            }
        }
    }
    files
}

/// A blank, a tab, a CR or an LF between the bytes of a line.
fn inserted() -> Vec<HexFile> {
    let mut files = Vec::new();
    for (index, line) in small().iter().enumerate() {
        for place in 1..line.len() {
            for odd in [" ", "\t", "\r", "\n", "\r\n", "\0"] {
                let (before, after) = line.split_at(place);
                let what = format!("{} at {place}", odd.escape_default());
                let text = small_with(index, [before, odd, after].concat());
                files.push(HexFile::unsound(index + 1, what, text));
            }
        }
    }
    files
}

/// The last line of the text, without an end, cut and followed by odd bytes.
fn tails() -> Vec<HexFile> {
    let mut files = Vec::new();
    let before = data(0, &[1, 2, 3]);
    let line = data(8, &[0x0A, 0xB0]);
    for length in 1..line.len() {
        for odd in *b" \r\0G\x80" {
            let mut text = text(&[&before]);
            text.extend(line[..length].bytes());
            text.push(odd);
            let what = format!("{length} bytes of the last line, {}", named(odd));
            files.push(HexFile::unsound(2, what, text));
        }
    }
    files
}

fn others() -> Vec<HexFile> {
    let blanks = |line: &str| {
        let pairs = line.as_bytes()[1..].chunks(2);
        let pairs: Vec<&[u8]> = pairs.collect();
        [b":", &pairs.join(&b' ')[..]].concat()
    };
    let line = data(0, &[0x12, 0x34, 0x56]);
    let unsound = |what: &str, line: &[u8]| HexFile::unsound(1, what, whole(&[line]));
    vec![
        unsound("blanks between the pairs", &blanks(&line)),
        unsound("a colon alone", b":"),
        unsound("two colons alone", b"::"),
        unsound("one pair", b":00"),
        unsound("four pairs whose sum fits", b":00000000"),
        unsound("four pairs of an end record", b":000001FF"),
        unsound("a remark", b"; an image"),
        unsound("an S record", b"S9030000FC"),
        unsound("another format's mark", b"@0000"),
        unsound(
            "a long line of digits",
            &[b":", &b"00".repeat(300)[..]].concat(),
        ),
        unsound("a longer one", &[b":", &b"0".repeat(70_001)[..]].concat()),
        unsound("many colons", &b":".repeat(1000)),
        unsound("0x before the count", b":0x00000001FF"),
        unsound("UTF-16", b":\x000\x000\x00"),
    ]
}
