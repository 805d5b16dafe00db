//! Where data is: at the memory's end, past it, about 2^16 and 2^32, and under type 04.

use super::file::HexFile;
use super::lines::{data, filler, upper, whole};

pub fn files() -> Vec<HexFile> {
    let mut files = Vec::new();
    for length in LENGTHS {
        let given = given(length).into_iter();
        files.extend(given.map(|file| file.lent(length)));
    }
    files.extend(about_two_to_16());
    files
}

/// Lengths of memory.
const LENGTHS: [usize; 9] = [16, 20, 24, 28, 32, 36, 256, 65_532, 65_536];

/// So many bytes from a place on, under the upper half of it where one is needed.
fn at(place: usize, count: usize) -> Vec<String> {
    let record = data(place as u16, &filler(count));
    match place >> 16 {
        0 => vec![record],
        half => vec![upper(half as u16), record],
    }
}

fn given(length: usize) -> Vec<HexFile> {
    let mut files = ends_of_memory(length);
    files.extend(no_data(length));
    files.extend(wrapping(length));
    files.extend(upper_halves(length));
    files.extend(moves(length));
    files
}

fn ends_of_memory(length: usize) -> Vec<HexFile> {
    let mut files = Vec::new();
    for count in [1, 2, 3, 4, 15, 16] {
        let what = format!("{count} bytes up to {length}");
        files.push(HexFile::sound(what, whole(&at(length - count, count))));
        for past in 1..=count {
            let what = format!("{count} bytes, {past} past {length}");
            let lines = at(length - count + past, count);
            files.push(HexFile::beyond(lines.len(), what, whole(&lines)));
        }
    }
    let far = [length + 4, length + 0x101, 2 * length];
    for place in far.into_iter().chain([0xFFFF_0000, 0xFFFF_FFFF]) {
        let lines = at(place, 1);
        let what = format!("a byte at {place:X}, memory of {length}");
        files.push(HexFile::beyond(lines.len(), what, whole(&lines)));
    }
    // The first of them are inside.
    for inside in [1, 4, 16] {
        let lines = at(length - inside, 255);
        let what = format!("255 bytes, {inside} inside {length}");
        files.push(HexFile::beyond(1, what, whole(&lines)));
    }
    let lines = [at(0, 16), at(length, 1)].concat();
    let what = format!("data before data past {length}");
    files.push(HexFile::beyond(lines.len(), what, whole(&lines)));
    files
}

/// "data beyond the lent memory" is none where there is no data.
fn no_data(length: usize) -> Vec<HexFile> {
    let mut files = Vec::new();
    let near = [0, length - 1, length, length + 1];
    for place in near.into_iter().chain([0xFFFE, 0x1_1000, 0xFFFF_FFFF]) {
        let what = format!("no data at {place:X}, memory of {length}");
        files.push(HexFile::sound(what, whole(&at(place, 0))));
    }
    files
}

/// Addresses pass 2^16 or 2^32 within the record.
fn wrapping(length: usize) -> Vec<HexFile> {
    let mut files = Vec::new();
    for half in [0, 0xFFFF_0000] {
        for (address, count) in [
            (0xFFF8, 16),
            (0xFFFF, 2),
            (0xFFF1, 16),
            (0xFFFC, 8),
            (0xFF02, 255),
        ] {
            let lines = at(half | address, count);
            let what = format!(
                "{count} bytes from {:X}, memory of {length}",
                half | address
            );
            files.push(HexFile::beyond(lines.len(), what, whole(&lines)));
        }
    }
    files
}

/// Data that would be inside without the upper half.
fn upper_halves(length: usize) -> Vec<HexFile> {
    let file = |half: u16| {
        let what = format!("upper half {half:04X}, memory of {length}");
        HexFile::beyond(2, what, whole(&[upper(half), data(0, &[1])]))
    };
    [1, 2, 0x0080, 0x0100, 0x7FFF, 0x8000, 0xFF00, 0xFFFF]
        .map(file)
        .into()
}

/// Several of type 04: the last before a record holds for it, and for those behind it.
fn moves(length: usize) -> Vec<HexFile> {
    let one = |value| data(4, &[value]);
    let sound = |what: &str, lines: &[String]| {
        HexFile::sound(format!("{what}, memory of {length}"), whole(lines))
    };
    let beyond = |line, what: &str, lines: &[String]| {
        HexFile::beyond(line, format!("{what}, memory of {length}"), whole(lines))
    };
    vec![
        sound("past the memory and no data", &[one(1), upper(1)]),
        sound("past the memory and back", &[upper(1), upper(0), one(1)]),
        sound(
            "data, past and back",
            &[one(1), upper(0xFFFF), upper(0), one(2)],
        ),
        sound(
            "past, no data, back",
            &[upper(1), data(0, &[]), upper(0), one(1)],
        ),
        sound(
            "0 many times",
            &[upper(0), upper(0), one(1), upper(0), one(2)],
        ),
        sound(
            "many, then 0",
            &[upper(1), upper(0x100), upper(0x8000), upper(0), one(1)],
        ),
        beyond(3, "back and past", &[upper(0), upper(1), one(1)]),
        beyond(
            3,
            "two of which the first is 0",
            &[upper(0), upper(0xFFFF), one(1)],
        ),
        beyond(
            3,
            "two that would come to 0",
            &[upper(0xFFFF), upper(1), one(1)],
        ),
        beyond(
            3,
            "two halves that would come to 0",
            &[upper(0x8000), upper(0x8000), one(1)],
        ),
        beyond(3, "past, no data, data", &[upper(1), data(0, &[]), one(1)]),
        beyond(3, "data, past, data", &[one(1), upper(1), one(2)]),
        beyond(
            5,
            "0 for two records, then past",
            &[upper(0), one(1), one(2), upper(1), one(3)],
        ),
    ]
}

/// Records up to 2^16 exactly, in the longest memory and in one that ends before.
fn about_two_to_16() -> Vec<HexFile> {
    let mut files = Vec::new();
    for (address, count) in [
        (0xFF01, 255),
        (0xFFF0, 16),
        (0xFFFF, 1),
        (0xFFFC, 4),
        (0xFFFD, 3),
    ] {
        let text = whole(&at(address, count));
        let what = format!("{count} bytes from {address:X} up to 10000");
        files.push(HexFile::sound(what, text.clone()).lent(65_536));
        for length in [32_768, 65_532] {
            let what = format!("{count} bytes from {address:X}, memory of {length}");
            files.push(HexFile::beyond(1, what, text.clone()).lent(length));
        }
    }
    files
}
