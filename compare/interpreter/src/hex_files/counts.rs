//! Counts that call for more or fewer pairs than the line has, with a sum that fits or not.

use super::file::HexFile;
use super::lines::{
    data, fitting, head_and_data, pairs, small_records, small_with, summed, text, whole,
};

pub fn files() -> Vec<HexFile> {
    let mut files = each_line();
    files.extend(every_count());
    files.extend(last_line());
    files.extend(two_fits());
    files.extend(far_too_many());
    files.extend(continued());
    files
}

/// What is added to a count, modulo 256.
const CHANGES: [u8; 14] = [
    1, 2, 3, 4, 5, 8, 0x10, 0x7F, 0x80, 0xFB, 0xFC, 0xFD, 0xFE, 0xFF,
];

fn each_line() -> Vec<HexFile> {
    let mut files = Vec::new();
    for (index, bytes) in small_records().into_iter().enumerate() {
        let sum = fitting(&bytes);
        for change in CHANGES {
            let mut bytes = bytes.clone();
            bytes[0] = bytes[0].wrapping_add(change);
            let what = format!("count {:02X} of {} pairs", bytes[0], bytes.len() + 1);
            let mended = summed(&bytes);
            bytes.push(sum);
            for (line, sum) in [(mended, "mended"), (pairs(&bytes), "old")] {
                let what = format!("{what}, {sum} sum");
                files.push(HexFile::unsound(index + 1, what, small_with(index, line)));
            }
        }
    }
    files
}

/// Each count for 4 bytes of data, with a sum that fits.
fn every_count() -> Vec<HexFile> {
    let file = |count| {
        let line = summed(&[count, 0, 4, 0, 0x11, 0x22, 0x33, 0x44]);
        let what = format!("count {count} for 4, mended sum");
        let text = whole(&[line]);
        if count == 4 {
            HexFile::sound(what, text)
        } else {
            HexFile::unsound(1, what, text)
        }
    };
    (0..=u8::MAX).map(file).collect()
}

/// The text ends far before the pairs that the last line's count calls for.
fn last_line() -> Vec<HexFile> {
    let mut files = Vec::new();
    for kind in [0, 1, 4] {
        for count in [3, 4, 5, 0x10, 0x7F, 0x80, 0xFB, 0xFF] {
            for present in [0, 1, 2] {
                let mut bytes = head_and_data(kind, 0, &[0xA5; 2][..present]);
                bytes[0] = count;
                let line = summed(&bytes);
                for end in ["", "\n", "\r\n"] {
                    let mut text = text(&[data(0, &[9; 4])]);
                    text.extend([line.as_bytes(), end.as_bytes()].concat());
                    let what = format!("count {count} for {present} in the last line, type {kind}");
                    let what = format!("{what}, end {}", end.escape_default());
                    files.push(HexFile::unsound(2, what, text));
                }
            }
        }
    }
    files
}

/// The sum fits both for the pairs called for and for those present.
fn two_fits() -> Vec<HexFile> {
    let mut files = Vec::new();
    for (index, bytes) in small_records().into_iter().enumerate() {
        for more in ["00", "0000", "FF01", "00000001FF", "80C0C0"] {
            let text = small_with(index, summed(&bytes) + more);
            let what = format!("{more} more than the count calls for");
            files.push(HexFile::unsound(index + 1, what, text));
        }
    }
    // The sum fits for the first bytes that are there, but it is called for later.
    let short = |line: &str| {
        let what = format!("{line}, whose sum fits before the count's end");
        HexFile::unsound(1, what, whole(&[line]))
    };
    files.extend([":02000000FE", ":03000000AA53", ":FF00000001"].map(short));
    files
}

/// As many pairs too many as a short counter of them, or of digits, wouldn't show.
fn far_too_many() -> Vec<HexFile> {
    let file = |more: usize| {
        let mut bytes = vec![4, 0, 0, 0, 0x11, 0x22, 0x33, 0x44];
        bytes.resize(bytes.len() + more, 0);
        let what = format!("{more} pairs more than the count calls for");
        HexFile::unsound(1, what, whole(&[summed(&bytes)]))
    };
    [64, 128, 256, 512, 32_768, 65_536].map(file).into()
}

/// The rest of a record on the next line.
fn continued() -> Vec<HexFile> {
    let line = data(0, &[0xDE, 0xAD, 0xBE, 0xEF]);
    let cut = |end: &str, colon: &str| {
        let (first, rest) = line.split_at(13);
        let what = format!("continued behind {}{colon}", end.escape_default());
        let lines = [first, end, colon, rest].concat();
        HexFile::unsound(1, what, whole(&[lines]))
    };
    vec![
        cut("\n", ""),
        cut("\r\n", ""),
        cut("\n", ":"),
        cut("\\\n", ""),
        cut("\r", ""),
    ]
}
