//! Sums: bits flipped, every other sum, and changes that a sum doesn't show.

use super::file::HexFile;
use super::lines::{data, fitting, head_and_data, pairs, small_records, small_with, summed, whole};

pub fn files() -> Vec<HexFile> {
    let mut files = flipped();
    files.extend(every_sum());
    files.extend(parts());
    files.extend(fitting_changes());
    files
}

/// Each bit of each byte, the sum's too.
fn flipped() -> Vec<HexFile> {
    let mut files = Vec::new();
    for (index, mut bytes) in small_records().into_iter().enumerate() {
        bytes.push(fitting(&bytes));
        for place in 0..bytes.len() {
            for bit in 0..8 {
                let mut bytes = bytes.clone();
                bytes[place] ^= 1 << bit;
                let what = format!("bit {bit} of byte {place} flipped");
                let text = small_with(index, pairs(&bytes));
                files.push(HexFile::unsound(index + 1, what, text));
            }
        }
    }
    files
}

/// Each sum for one record of data, in lower case too.
fn every_sum() -> Vec<HexFile> {
    let bytes = head_and_data(0, 8, &[0x5A, 0xA7, 0xF0]);
    let right = fitting(&bytes);
    let mut files = Vec::new();
    for sum in 0..=u8::MAX {
        let line = pairs(&[&bytes[..], &[sum]].concat());
        for line in [line.clone(), line.to_lowercase()] {
            let what = format!("sum {sum:02X} of {line}");
            let text = whole(&[line]);
            files.push(if sum == right {
                HexFile::sound(what, text)
            } else {
                HexFile::unsound(1, what, text)
            });
        }
    }
    files
}

/// Sums that would fit a part of the record, or were made another way.
fn parts() -> Vec<HexFile> {
    let bytes = head_and_data(0, 0x0110, &[0x5A, 0xA7, 0xF0]);
    let without = |place: usize| {
        let mut others = bytes.clone();
        others.remove(place);
        fitting(&others)
    };
    let right = fitting(&bytes);
    let rows = [
        ("without the count", without(0)),
        ("without the upper half of the address", without(1)),
        ("without the lower half of the address", without(2)),
        ("without the last byte", without(6)),
        ("of the data alone", fitting(&bytes[4..])),
        ("of the head alone", fitting(&bytes[..4])),
        ("not negated", right.wrapping_neg()),
        ("negated without the one", right.wrapping_sub(1)),
        ("one above", right.wrapping_add(1)),
        (
            "by exclusive or",
            bytes.iter().fold(0, |sum, byte| sum ^ byte),
        ),
        ("with its digits exchanged", right.rotate_left(4)),
    ];
    let file = |(what, sum): (&str, u8)| {
        assert_ne!(sum, right, "{what}");
        let line = pairs(&[&bytes[..], &[sum]].concat());
        HexFile::unsound(1, format!("the sum {what}"), whole(&[line])).lent(65_536)
    };
    let mut files: Vec<HexFile> = rows.map(file).into();
    // The type counts in a record of which it isn't 0.
    for (what, bytes) in [
        ("end record", head_and_data(1, 0, &[])),
        ("type 04", vec![2, 0, 0, 4, 0, 0]),
    ] {
        let sum = fitting(&bytes).wrapping_add(bytes[3]);
        let line = pairs(&[&bytes[..], &[sum]].concat());
        let what = format!("the sum without the type, {what}");
        files.push(HexFile::unsound(1, what, whole(&[line])));
    }
    files
}

/// Bytes exchanged, so that the sum still fits, and errors of two lines that cancel.
fn fitting_changes() -> Vec<HexFile> {
    let cancel = |change: u8| pairs(&[1, 0, 0, 0, 0x40, 0xBFu8.wrapping_add(change)]);
    vec![
        HexFile::sound("data exchanged", whole(&[data(0, &[0xAD, 0xDE])])),
        HexFile::beyond(1, "address bytes exchanged", whole(&[data(0x1000, &[5])])),
        HexFile::unsound(
            1,
            "count and address exchanged",
            whole(&[":00020000AABB99"]),
        ),
        HexFile::unsound(1, "errors that cancel", whole(&[cancel(1), cancel(255)])),
        HexFile::unsound(
            2,
            "the last sum alone is wrong",
            whole(&[cancel(0), cancel(255)]),
        ),
        HexFile::unsound(2, "the end record's sum is 00", ended_by(":0000000100")),
        HexFile::unsound(2, "the end record's sum is FE", ended_by(":00000001FE")),
        HexFile::sound(
            "a sum of 00",
            whole(&[summed(&[4, 0, 0, 0, 0xFC, 0, 0, 0])]),
        ),
        HexFile::sound("all bytes 00", whole(&[data(0, &[0; 16])])),
        HexFile::sound("a sum far above 256", whole(&[data(0, &[0xFF; 32])])),
    ]
}

fn ended_by(line: &str) -> Vec<u8> {
    [data(0, &[1]), line.into()].join("\n").into()
}
