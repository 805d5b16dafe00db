//! Bytes that are no digits, in each place of each line.

use super::file::HexFile;
use super::lines::{data, named, small, small_with, upper, whole, END};

pub fn files() -> Vec<HexFile> {
    let mut files = beside_the_ranges();
    files.extend(every_byte());
    files.extend(every_sum());
    files.extend(taken_for_digits());
    files.extend(every_colon());
    files
}

/// Just beside the ranges of digits, ends of lines, what some parsers skip or take, and digits with
/// the top bit.
const ODD: &[u8] = b"/:@G`g \t\0\x80\r\n+-xX_.\xB1\xC1\xE1\xFF";

fn beside_the_ranges() -> Vec<HexFile> {
    let mut files = Vec::new();
    for (index, line) in small().iter().enumerate() {
        for place in 0..line.len() {
            for &odd in ODD.iter().filter(|&&odd| odd != line.as_bytes()[place]) {
                let mut line = line.clone().into_bytes();
                line[place] = odd;
                let what = format!("{} in place {place}", named(odd));
                files.push(HexFile::unsound(index + 1, what, small_with(index, line)));
            }
        }
    }
    files
}

/// Each byte for the digits A and B of a pair AB, whose sum it fits or doesn't.
fn every_byte() -> Vec<HexFile> {
    let mut files = Vec::new();
    let line = data(4, &[0xAB, 0x12]);
    for (place, right) in [(9, b'A'), (10, b'B')] {
        assert_eq!(line.as_bytes()[place], right);
        for byte in 0..=u8::MAX {
            let mut line = line.clone().into_bytes();
            line[place] = byte;
            let what = format!("{} for {}", named(byte), named(right));
            let text = whole(&[line]);
            files.push(if byte.eq_ignore_ascii_case(&right) {
                HexFile::sound(what, text)
            } else {
                HexFile::unsound(1, what, text)
            });
        }
    }
    files
}

/// The bytes beside the ranges as the upper and the lower digit of a byte of data, with each sum: one
/// of them fits whatever a reader takes the byte for.
fn every_sum() -> Vec<HexFile> {
    let line = data(4, &[0xAB, 0x12]);
    let mut files = Vec::new();
    for odd in *b"/:@G`g" {
        for place in [9, 10] {
            for sum in 0..=u8::MAX {
                let mut line = line.clone().into_bytes();
                line[place] = odd;
                line.truncate(13);
                line.extend(format!("{sum:02X}").bytes());
                let what = format!("{} in place {place}, sum {sum:02X}", named(odd));
                files.push(HexFile::unsound(1, what, whole(&[line])));
            }
        }
    }
    files
}

/// Each other byte for a digit that some arithmetic without a test makes of it, in every place.
fn taken_for_digits() -> Vec<HexFile> {
    let mut files = Vec::new();
    let all_digits = data(9, &[0x01, 0x23, 0x45, 0x67, 0x89, 0xAB, 0xCD, 0xEF]);
    for line in [all_digits, upper(0), END.into()] {
        for (place, digit) in line.char_indices().skip(1) {
            let digit = digit.to_digit(16).expect("a digit") as u8;
            let odd = (0..=u8::MAX).filter(|byte| !byte.is_ascii_hexdigit());
            for odd in odd.filter(|&odd| taken_for(odd).contains(&digit)) {
                let what = format!("{} for {digit:X} in place {place} of {line}", named(odd));
                let mut line = line.clone().into_bytes();
                line[place] = odd;
                files.push(HexFile::unsound(1, what, whole(&[line])));
            }
        }
    }
    files
}

fn taken_for(byte: u8) -> [u8; 4] {
    let less = |first: u8| byte.wrapping_sub(first);
    let values = [
        less(b'0'),
        less(b'A' - 10),
        less(b'a' - 10),
        (byte & 15) + 9,
    ];
    values.map(|value| value & 15)
}

fn every_colon() -> Vec<HexFile> {
    let line = data(4, &[0xAB, 0x12]);
    let file = |byte| {
        let mut line = line.clone().into_bytes();
        line[0] = byte;
        HexFile::unsound(1, format!("{} for the colon", named(byte)), whole(&[line]))
    };
    let others = (0..=u8::MAX).filter(|&byte| byte != b':');
    others.map(file).collect()
}
