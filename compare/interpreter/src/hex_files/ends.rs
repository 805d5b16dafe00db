//! Ends of lines and of the text: those allowed on each line, those that aren't, empty lines, texts
//! without an end record, and texts cut at every byte.

use super::file::HexFile;
use super::lines::{ended, small, text, END};

pub fn files() -> Vec<HexFile> {
    let mut files = allowed();
    files.extend(others());
    files.extend(carriage_returns());
    files.extend(empty_lines());
    files.extend(without_end_record());
    files.extend(cut());
    files.extend(short_texts());
    files
}

/// The small file's lines, each with its own end.
fn with_ends(ends: &[&str]) -> Vec<u8> {
    let lines = small();
    assert_eq!(lines.len(), ends.len());
    let lines = lines.iter().zip(ends);
    lines
        .flat_map(|(line, end)| [line, *end].concat().into_bytes())
        .collect()
}

/// The small file's lines, each with LF but for one.
fn with_end(index: usize, end: &str) -> Vec<u8> {
    let mut ends = ["\n"; 4];
    ends[index] = end;
    with_ends(&ends)
}

fn shown(ends: &[&str]) -> String {
    let shown: Vec<String> = ends
        .iter()
        .map(|end| end.escape_default().to_string())
        .collect();
    shown.join(" ")
}

fn allowed() -> Vec<HexFile> {
    let mut files = Vec::new();
    for choice in 0..8 {
        let between = |bit: u32| if choice >> bit & 1 == 1 { "\r\n" } else { "\n" };
        for last in ["\n", "\r\n", ""] {
            let ends = [between(0), between(1), between(2), last];
            let what = format!("ends {}", shown(&ends));
            files.push(HexFile::sound(what, with_ends(&ends)));
        }
    }
    files
}

/// What some take as an end of a line, or that follows a CR that isn't one.
const NO_ENDS: [&str; 14] = [
    "\r", "\r\r", "\r\r\n", "\r\r\r\n", "\r \n", "\r\0\n", " \n", "\t\r\n", "\0", "\0\n", "\u{B}",
    "\u{C}\n", "\u{85}", "\u{2028}",
];

fn others() -> Vec<HexFile> {
    let mut files = Vec::new();
    for end in NO_ENDS {
        for index in 0..4 {
            let what = format!("end {}", shown(&[end]));
            files.push(HexFile::unsound(index + 1, what, with_end(index, end)));
        }
        let everywhere = format!("end {} everywhere", shown(&[end]));
        files.push(HexFile::unsound(1, everywhere, ended(&small(), end)));
    }
    // A CR behind an LF begins the next line; behind the end record's LF nothing is looked at.
    for index in 0..3 {
        let text = with_end(index, "\n\r");
        files.push(HexFile::unsound(index + 2, "end \\n\\r", text));
    }
    files.push(HexFile::unsound(
        2,
        "end \\n\\r everywhere",
        ended(&small(), "\n\r"),
    ));
    files.push(HexFile::sound(
        "end \\n\\r of the last line",
        with_end(3, "\n\r"),
    ));
    files
}

/// A CR as the last byte of the text, and before or within a record.
fn carriage_returns() -> Vec<HexFile> {
    let [first, second, third, end] = &small()[..] else {
        unreachable!("the small file has four lines");
    };
    let unfinished = [first, "\n", second, "\r\n", third, "\r"].concat();
    let finished = [first, "\n", end, "\r"].concat();
    let crs = [first, "\r\n", end, "\r\r"].concat();
    vec![
        HexFile::unsound(
            3,
            "a CR at the end of a text without an end record",
            unfinished,
        ),
        HexFile::unsound(2, "a CR at the text's end", finished),
        HexFile::unsound(2, "two CR at the text's end", crs),
        HexFile::unsound(1, "an end record and a CR", format!("{END}\r")),
        HexFile::unsound(1, "a CR and an end record", format!("\r{END}\r\n")),
        HexFile::unsound(1, "a CR, an LF and an end record", format!("\r\n{END}\r\n")),
        HexFile::unsound(1, "a CR before the sum", ":000000\r01FF\n"),
        HexFile::unsound(1, "a CR within the sum", ":00000001F\rF\n"),
    ]
}

/// An empty line, or one of blanks, before each line and behind the last.
fn empty_lines() -> Vec<HexFile> {
    let mut files = Vec::new();
    for empty in ["\n", "\r\n", "\n\n", "\r\n\r\n", " \n", "\t\r\n", "\0\n"] {
        for index in 0..=4 {
            let mut lines = small();
            lines.iter_mut().for_each(|line| line.push('\n'));
            lines.insert(index, empty.into());
            let text = lines.concat();
            let what = format!("the line {} before line {}", shown(&[empty]), index + 1);
            files.push(if index == 4 {
                HexFile::sound(what, text)
            } else {
                HexFile::unsound(index + 1, what, text)
            });
        }
    }
    files
}

fn without_end_record() -> Vec<HexFile> {
    let mut files = Vec::new();
    for lines in 1..=3 {
        for end in ["\n", "\r\n"] {
            let text = ended(&small()[..lines], end);
            let open = text[..text.len() - end.len()].to_vec();
            let what = format!("{} and no end record", shown(&[end]));
            files.push(HexFile::endless(lines, &what, text.clone()));
            files.push(HexFile::endless(lines, format!("{what}, open"), open));
            let empty = [&text, end.as_bytes()].concat();
            files.push(HexFile::unsound(
                lines + 1,
                format!("{what}, empty line"),
                empty,
            ));
        }
    }
    files.push(HexFile::endless(
        40,
        "many lines",
        text(&vec![&small()[1]; 40]),
    ));
    files
}

/// The small file, with LF and with CR LF, cut at every byte.
fn cut() -> Vec<HexFile> {
    let mut files = Vec::new();
    for end in ["\n", "\r\n"] {
        let mut before = Vec::new();
        for (index, line) in small().iter().enumerate() {
            let bytes = [line, end].concat().into_bytes();
            for length in 0..bytes.len() {
                let text = [&before, &bytes[..length]].concat();
                let what = format!("{} cut behind {} bytes", shown(&[end]), text.len());
                let whole = length == line.len();
                files.push(if length == 0 {
                    HexFile::endless(index, what, text)
                } else if !whole {
                    HexFile::unsound(index + 1, what, text)
                } else if line == END {
                    HexFile::sound(what, text)
                } else {
                    HexFile::endless(index + 1, what, text)
                });
            }
            before.extend(bytes);
        }
        files.push(HexFile::sound(format!("{} not cut", shown(&[end])), before));
    }
    files
}

fn short_texts() -> Vec<HexFile> {
    let mut files = vec![
        HexFile::endless(0, "an empty text", ""),
        HexFile::sound("an end record alone", format!("{END}\n")),
        HexFile::sound("an end record with CR LF alone", format!("{END}\r\n")),
        HexFile::sound("an end record without an end", END),
        HexFile::sound("an end record in lower case", ":00000001ff"),
    ];
    let texts = [
        "\n", "\r", "\r\n", "\n\n", "\n\r", "\r\r\n", "\0", " ", "\u{1A}", ":", "0", "00",
    ];
    files.extend(texts.map(|text| HexFile::unsound(1, shown(&[text]), text)));
    files.push(HexFile::unsound(1, "a byte 80", vec![0x80]));
    files.push(HexFile::unsound(1, "zeros", vec![0; 1000]));
    files
}
