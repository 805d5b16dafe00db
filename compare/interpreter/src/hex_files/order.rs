//! Which refusal comes first: line order, 41 before 42 on one line, 43 behind both.

use super::file::HexFile;
use super::lines::{data, filler, head_and_data, pairs, record, small, text, upper, whole};

pub fn files() -> Vec<HexFile> {
    let mut files = one_line();
    files.extend(lines());
    files.extend(before_43());
    files.extend(named_before());
    files
}

/// Data beyond the memory.
fn beyond() -> String {
    data(0x40, &[1, 2, 3, 4])
}

/// The same in lines that aren't sound.
fn both() -> Vec<(&'static str, Vec<u8>)> {
    let line = beyond();
    let bytes = head_and_data(0, 0x40, &[1, 2, 3, 4]);
    let wrong_sum = pairs(&[&bytes[..], &[0]].concat());
    vec![
        ("a bad sum", wrong_sum.into()),
        ("a bad digit", line.replace("02", "0G").into()),
        ("a digit too few", line[..line.len() - 1].into()),
        ("a pair too many", format!("{line}00").into()),
        ("no colon", line[1..].into()),
        ("a blank behind", format!("{line} ").into()),
        ("a CR behind", format!("{line}\r\r").into()),
        ("type 05", record(5, 0x40, &[1, 2, 3, 4]).into()),
        ("type 80", record(0x80, 0x40, &[1, 2, 3, 4]).into()),
        ("a count too large", line.replacen(":04", ":FF", 1).into()),
    ]
}

fn one_line() -> Vec<HexFile> {
    let mut files = Vec::new();
    for (what, line) in both() {
        let what = format!("data beyond and {what}");
        let first = whole(std::slice::from_ref(&line));
        files.push(HexFile::unsound(1, &what, first));
        let inside = data(0, &[5]).into_bytes();
        let later = whole(&[inside.clone(), upper(2).into(), line.clone()]);
        files.push(HexFile::unsound(3, format!("{what}, later"), later));
        let open = [&inside, &b"\n"[..], &line].concat();
        files.push(HexFile::unsound(2, format!("{what}, without an end"), open));
    }
    files
}

fn lines() -> Vec<HexFile> {
    let mut files = Vec::new();
    let inside = || data(0, &filler(8)).into_bytes();
    let beyond = || beyond().into_bytes();
    for (what, bad) in both() {
        let one = [beyond(), bad.clone()];
        let other = [bad.clone(), beyond()];
        let far = [beyond(), inside(), inside(), bad.clone()];
        let far_other = [inside(), bad.clone(), inside(), beyond()];
        files.push(HexFile::beyond(1, format!("42, then {what}"), whole(&one)));
        files.push(HexFile::unsound(
            1,
            format!("{what}, then 42"),
            whole(&other),
        ));
        files.push(HexFile::beyond(
            1,
            format!("42, lines, {what}"),
            whole(&far),
        ));
        files.push(HexFile::unsound(
            2,
            format!("{what}, line, 42"),
            whole(&far_other),
        ));
    }
    let empty = text(&[beyond(), vec![], beyond()]);
    files.push(HexFile::beyond(1, "42, then an empty line", empty));
    let empty = text(&[inside(), vec![], beyond()]);
    files.push(HexFile::unsound(2, "an empty line, then 42", empty));
    let twice = whole(&[inside(), beyond(), beyond()]);
    files.push(HexFile::beyond(2, "42 twice", twice));
    let by_half = whole(&[upper(1).into(), inside(), b":".into()]);
    files.push(HexFile::beyond(2, "42 by an upper half, then 41", by_half));
    let by_half = whole(&[upper(1).into(), b":".into(), inside()]);
    files.push(HexFile::unsound(2, "an upper half, 41, then 42", by_half));
    files
}

/// A text without an end record comes to 41 or 42 where it has one, on its last line too.
fn before_43() -> Vec<HexFile> {
    let inside = data(0, &filler(8)).into_bytes();
    let beyond = beyond().into_bytes();
    let mut files = Vec::new();
    for end in ["", "\n", "\r\n"] {
        let shown = end.escape_default();
        let end = end.as_bytes();
        let last = [&inside, &b"\n"[..], &beyond, end].concat();
        let what = format!("42 on the last line of a text without an end record, {shown}");
        files.push(HexFile::beyond(2, what, last));
        let earlier = [&beyond, &b"\n"[..], &inside, end].concat();
        let what = format!("42 before a line of a text without an end record, {shown}");
        files.push(HexFile::beyond(1, what, earlier));
        let alone = [&beyond, end].concat();
        files.push(HexFile::beyond(1, format!("42 alone, {shown}"), alone));
        let unsound = [&inside, &b"\n:0"[..], end].concat();
        let what = format!("41 on the last line of a text without an end record, {shown}");
        files.push(HexFile::unsound(2, what, unsound));
        let twice = [&inside, &b"\n"[..], &inside, end].concat();
        files.push(HexFile::endless(
            2,
            format!("no end record, {shown}"),
            twice,
        ));
    }
    files
}

/// What was named before a refusal is 0 afterwards.
fn named_before() -> Vec<HexFile> {
    let full: Vec<String> = (0..2).map(|half| data(16 * half, &filler(16))).collect();
    let with = |line: &str| whole(&[&full[..], &[line.into()]].concat());
    let half = data(0x18, &filler(16));
    vec![
        HexFile::unsound(3, "41 behind a full memory", with(":")),
        HexFile::beyond(3, "42 behind a full memory", with(&beyond())),
        HexFile::endless(2, "43 behind a full memory", text(&full)),
        HexFile::beyond(1, "42 halfway through a record", whole(&[half])),
        HexFile::sound("zeros behind a full memory", with(&data(0, &[0; 32]))),
        HexFile::unsound(
            4,
            "41 for the end record",
            [&text(&small()[..3])[..], b":00000001FE"].concat(),
        ),
    ]
}
