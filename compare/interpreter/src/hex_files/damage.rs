//! One random edit of a file's lines.

use super::lines::{data, fitting, upper};
use crate::random::Random;

type Lines = Vec<Vec<u8>>;

/// Bytes beside the digits, and ends of lines.
const ODD: &[u8] = b"/:@G`g \t\0\x80\r\n";

const DIGITS: &[u8] = b"0123456789ABCDEFabcdef";

/// Ends that a line may get: allowed ones, others, and none.
const ENDS: [&[u8]; 9] = [
    b"\n", b"\r\n", b"\r", b"\r\r\n", b"\n\r", b"\n\n", b" \n", b"", b"",
];

/// Changes bytes, pairs, lines or ends; some changes mend the sum of the line, or may.
pub fn damage(random: &mut Random, lines: &mut Lines) {
    if lines.is_empty() {
        lines.push(b"\n".to_vec());
    }
    let index = random.below(lines.len() as u32) as usize;
    match random.below(16) {
        0..=3 => within(random, &mut lines[index]),
        4..=6 => head(random, &mut lines[index]),
        7 => {
            let other = random.below(lines.len() as u32) as usize;
            lines.swap(index, other);
        }
        8 => drop(lines.remove(index)),
        9 => lines.insert(index, lines[index].clone()),
        10 => end(random, &mut lines[index]),
        11 => cut(random, lines, index),
        12 => drop_the_end(lines),
        13..=14 => lines.insert(index, record(random)),
        _ => behind(random, &mut lines[index]),
    }
}

/// Changes, leaves out or doubles a byte or two.
fn within(random: &mut Random, line: &mut Vec<u8>) {
    if line.is_empty() {
        return;
    }
    let place = random.below(line.len() as u32) as usize;
    let width = (1 + random.below(2) as usize).min(line.len() - place);
    let part = place..place + width;
    match random.below(4) {
        0 => drop(line.drain(part)),
        1 => {
            let twice = line[part.clone()].repeat(2);
            line.splice(part, twice);
        }
        2 => line[place] = random.pick(ODD),
        _ => line[place] = random.pick(DIGITS),
    }
    if random.chance(1, 2) {
        mend(line);
    }
}

/// Changes a byte of count, address or type, by a little or to any.
fn head(random: &mut Random, line: &mut [u8]) {
    let place = 1 + 2 * random.below(4) as usize;
    let Some(digits) = line.get_mut(place..place + 2) else {
        return;
    };
    let Some(old) = byte(digits) else {
        return;
    };
    let new = match random.below(4) {
        0 => random.word() as u8,
        1 => random.pick(&[0, 1, 2, 3, 4, 5]),
        2 => old.wrapping_add(1),
        _ => old ^ 1 << random.below(8),
    };
    digits.copy_from_slice(format!("{new:02X}").as_bytes());
    if random.chance(4, 5) {
        mend(line);
    }
}

fn end(random: &mut Random, line: &mut Vec<u8>) {
    line.truncate(line.trim_ascii_end().len());
    line.extend(random.pick(&ENDS));
}

/// Ends the text within a line, or at its end.
fn cut(random: &mut Random, lines: &mut Lines, index: usize) {
    lines.truncate(index + 1);
    let length = lines[index].len() as u32;
    lines[index].truncate(random.below(length + 1) as usize);
}

/// Leaves out every end record.
fn drop_the_end(lines: &mut Lines) {
    lines.retain(|line| !line.to_ascii_uppercase().starts_with(b":00000001FF"));
}

/// A sound record that moves later ones, or names bytes from any place below 2^16 on.
fn record(random: &mut Random) -> Vec<u8> {
    let any = random.word() as u16;
    let record = if random.chance(1, 2) {
        upper(random.pick(&[0, 1, 2, 0x0100, 0x8000, any]))
    } else {
        data(random.pick(&[any, any, 0xFFF8, 0xFFFF]), &[0xC3; 9])
    };
    [record.as_bytes(), b"\n"].concat()
}

/// Puts something behind the sum.
fn behind(random: &mut Random, line: &mut Vec<u8>) {
    let place = line.trim_ascii_end().len();
    let more: &[u8] = random.pick(&[b" ", b"0", b"00", b"\0", b":", b"\r", b"FF01"]);
    line.splice(place..place, more.iter().copied());
}

/// Makes the sum fit, where the line is a colon and pairs of digits.
fn mend(line: &mut [u8]) {
    let end = line.trim_ascii_end().len();
    let Some(digits) = line[..end].strip_prefix(b":") else {
        return;
    };
    let Some(bytes) = digits.chunks(2).map(byte).collect::<Option<Vec<u8>>>() else {
        return;
    };
    if let [others @ .., _] = &bytes[..] {
        let sum = format!("{:02X}", fitting(others));
        line[end - 2..end].copy_from_slice(sum.as_bytes());
    }
}

/// The byte that two digits name.
fn byte(pair: &[u8]) -> Option<u8> {
    let digits = pair.len() == 2 && pair.iter().all(u8::is_ascii_hexdigit);
    let text = std::str::from_utf8(pair).ok().filter(|_| digits)?;
    u8::from_str_radix(text, 16).ok()
}
