//! Types: those that aren't taken, and 01 and 04 with other data or another address.

use super::file::HexFile;
use super::lines::{data, filler, record, small_with, text, upper, whole, END};

pub fn files() -> Vec<HexFile> {
    let mut files = other_types();
    files.extend(public_examples());
    files.extend(ends());
    files.extend(upper_halves());
    files
}

/// Every other type with a right sum: no data, two bytes, four, beyond the memory.
fn other_types() -> Vec<HexFile> {
    let mut files = Vec::new();
    let others = (2..=u8::MAX).filter(|&kind| kind != 4);
    for kind in others {
        for (address, count) in [(0, 0), (0, 2), (0, 4), (0xFFF0, 4)] {
            let what = format!("type {kind:02X} of {count} bytes at {address:04X}");
            let line = record(kind, address, &filler(count));
            files.push(HexFile::unsound(1, &what, whole(&[&line])));
            if kind <= 6 || [0x10, 0x40, 0x80, 0x81, 0x84, 0xFF].contains(&kind) {
                let before_end = small_with(2, line.clone());
                files.push(HexFile::unsound(3, format!("{what}, later"), before_end));
                let for_end = text(&[data(0, &[1]), line]);
                files.push(HexFile::unsound(2, format!("{what}, for an end"), for_end));
            }
        }
    }
    files
}

/// The types that descriptions of the format give with these lines.
fn public_examples() -> Vec<HexFile> {
    let unsound = |line: &str| HexFile::unsound(1, line, whole(&[line])).lent(65_536);
    [
        ":020000021200EA",
        ":0400000300003800C1",
        ":04000005000000CD2A",
        ":020000021000EC",
        ":020000020000FC",
        ":0400000500000000F7",
    ]
    .map(unsound)
    .into()
}

fn ends() -> Vec<HexFile> {
    let mut files = Vec::new();
    let rows = [
        (0, 1),
        (0, 2),
        (0, 4),
        (0, 255),
        (1, 0),
        (4, 0),
        (0x0100, 0),
        (0x8000, 0),
        (0xFFFF, 0),
        (0x10, 4),
    ];
    for (address, count) in rows {
        let line = record(1, address, &vec![0; count]);
        let what = format!("end record of {count} bytes at {address:04X}");
        files.push(HexFile::unsound(1, &what, whole(&[&line])));
        let last = text(&[data(0, &[1]), line]);
        files.push(HexFile::unsound(2, format!("{what}, last"), last));
    }
    files
}

fn upper_halves() -> Vec<HexFile> {
    let mut files = Vec::new();
    for count in [0, 1, 3, 4, 5, 255] {
        let line = record(4, 0, &vec![0; count]);
        let what = format!("type 04 of {count} bytes");
        files.push(HexFile::unsound(1, &what, whole(&[&line])));
        let last = text(&[data(0, &[1]), line]);
        files.push(HexFile::unsound(2, format!("{what}, last"), last));
    }
    for address in [1, 2, 4, 0x10, 0x0100, 0x8000, 0xFFFF] {
        let line = record(4, address, &[0, 0]);
        let what = format!("type 04 at {address:04X}");
        files.push(HexFile::unsound(1, &what, whole(&[&line])));
        files.push(HexFile::unsound(
            3,
            format!("{what}, later"),
            small_with(2, line),
        ));
    }
    files.push(HexFile::unsound(
        1,
        "type 04 of no bytes at 0001",
        whole(&[record(4, 1, &[])]),
    ));
    let sound = [":020000040000FA", ":020000040800F2", ":02000004FFFFFC"];
    files.extend(sound.map(|line| HexFile::sound(line, whole(&[line]))));
    let swapped = text(&[upper(0), END.into(), record(1, 1, &[])]);
    files.push(HexFile::sound("a bad end record behind the end", swapped));
    files
}
