//! Text behind the end record's line, which may be anything, and on that line, which may not.

use super::file::HexFile;
use super::lines::{data, filler, text, upper, END};

pub fn files() -> Vec<HexFile> {
    let mut files = Vec::new();
    for (what, rest) in rests() {
        for end in ["\n", "\r\n"] {
            let shown = end.escape_default();
            let before = [data(4, &[7, 8, 9]), END.into()].join("\n");
            let behind = [before.as_bytes(), end.as_bytes(), &rest].concat();
            files.push(HexFile::sound(
                format!("{what} behind the end and {shown}"),
                behind,
            ));
            let alone = [END.as_bytes(), end.as_bytes(), &rest].concat();
            files.push(HexFile::sound(
                format!("{what} behind the end alone and {shown}"),
                alone,
            ));
        }
        let same_line = [data(4, &[7, 8, 9]), END.into()].join("\n").into_bytes();
        let same_line = [&same_line[..], &rest].concat();
        let what = format!("{what} on the end record's line");
        files.push(HexFile::unsound(2, what, same_line));
    }
    files.extend(others());
    files
}

/// None of them begins with an end of a line.
fn rests() -> Vec<(&'static str, Vec<u8>)> {
    vec![
        ("a record", text(&[data(4, &[1, 2, 3])])),
        ("a record without an end", data(4, &[1, 2, 3]).into()),
        (
            "records elsewhere",
            text(&[data(0, &filler(16)), data(16, &filler(16))]),
        ),
        ("a record beyond", text(&[data(0xFFF0, &filler(16))])),
        (
            "an upper half and a record",
            text(&[upper(1), data(0, &filler(4))]),
        ),
        ("another end", text(&[END])),
        (
            "another end and a record",
            text(&[END.into(), data(4, &[1])]),
        ),
        ("a bad sum", text(&[":0300040001020300"])),
        ("a bad count", b":FF".into()),
        ("a type that isn't taken", b":0400000500000000F7\n".into()),
        ("half a record", b":030004000102".into()),
        ("a blank", b" ".into()),
        ("a NUL", b"\0".into()),
        ("CR CR", b"\r\r".into()),
        (
            "CR and a record",
            [b"\r", data(4, &[1]).as_bytes()].concat(),
        ),
        ("a mark of the text's end", b"\x1A".into()),
        ("a remark", b"; the end\nof it".into()),
        ("every byte", (0..=u8::MAX).collect()),
        ("bytes from 80 on", (0x80..=u8::MAX).rev().collect()),
        ("much rubbish", b"rubbish ".repeat(10_000)),
        ("many colons", b":".repeat(500)),
    ]
}

fn others() -> Vec<HexFile> {
    let first = [END.into(), data(0, &filler(32)), END.into()];
    let between = [data(0, &[1]), END.into(), data(0, &[2]), data(1, &[3])];
    let empty = format!("{END}\n\n\r\n\n");
    vec![
        HexFile::sound("the end record first", text(&first)),
        HexFile::sound("the same bytes named behind the end", text(&between)),
        HexFile::sound("empty lines behind the end", empty),
        HexFile::sound("LF CR behind the end", format!("{END}\n\r")),
        HexFile::unsound(1, "a CR and no LF behind the end", format!("{END}\r")),
        HexFile::unsound(1, "a CR and rubbish behind the end", format!("{END}\rX\n")),
    ]
}
