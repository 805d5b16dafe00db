//! Files that are taken: whole memories by records of each length, both cases of digits, records out
//! of order and on top of one another, public examples.

use super::file::HexFile;
use super::lines::{data, ended, filler, small, text, upper, whole, END};
use crate::random::Random;

pub fn files() -> Vec<HexFile> {
    let mut files = whole_memories();
    files.extend(cases_of_digits());
    files.extend(twice());
    files.extend(orders());
    files.extend(lengths_of_records());
    files.extend(public_examples());
    files
}

/// The first `length` bytes of memory by records of so many, a shorter last one.
fn covered(image: &[u8], count: usize) -> Vec<String> {
    let records = image.chunks(count).enumerate();
    records
        .map(|(index, bytes)| data((index * count) as u16, bytes))
        .collect()
}

fn whole_memories() -> Vec<HexFile> {
    let mut random = Random::new(0x4E0);
    let mut files = Vec::new();
    for length in [16, 20, 24, 28, 32, 36, 256, 65_532, 65_536] {
        let image: Vec<u8> = (0..length).map(|_| random.word() as u8).collect();
        for count in [1, 3, 4, 15, 16, 17, 32, 128, 255] {
            let lines = covered(&image, count);
            let what = format!("records of {count}, memory of {length}");
            files.push(HexFile::sound(what, whole(&lines)).lent(length));
        }
        let mut lines = covered(&image, 16);
        lines.push(END.into());
        let what = format!("records of 16 with CR LF, memory of {length}");
        files.push(HexFile::sound(what, ended(&lines, "\r\n")).lent(length));
        let lower = String::from_utf8(whole(&lines))
            .expect("digits")
            .to_lowercase();
        let what = format!("records of 16 in lower case, memory of {length}");
        files.push(HexFile::sound(what, lower).lent(length));
    }
    files
}

/// Every byte in each of the four ways to write its digits.
fn cases_of_digits() -> Vec<HexFile> {
    let bytes: Vec<u8> = (0..=u8::MAX).collect();
    let mut lines = covered(&bytes, 16);
    lines.push(upper(0));
    lines.push(data(0xFA, &[0xAF, 0xFA, 0xBC, 0xDE, 0xED, 0xCB]));
    lines.push(END.into());
    let lines = lines.join("\n");
    let alternating = |first: usize| -> String {
        let one = |(index, digit): (usize, char)| match (index + first) % 2 {
            0 => digit.to_ascii_lowercase(),
            _ => digit,
        };
        lines.chars().enumerate().map(one).collect()
    };
    let by_line = |first: usize| -> String {
        let one = |(index, line): (usize, &str)| match (index + first) % 2 {
            0 => line.to_lowercase(),
            _ => line.into(),
        };
        let lines: Vec<String> = lines.lines().enumerate().map(one).collect();
        lines.join("\n")
    };
    let sound = |what: &str, text: String| HexFile::sound(what, text).lent(256);
    vec![
        sound("every byte in upper case", lines.clone()),
        sound("every byte in lower case", lines.to_lowercase()),
        sound(
            "every byte, every other digit in lower case",
            alternating(0),
        ),
        sound("every byte, the other digits in lower case", alternating(1)),
        sound("every other line in lower case", by_line(0)),
        sound("the other lines in lower case", by_line(1)),
    ]
}

/// "a byte named twice takes the later", also with a 0.
fn twice() -> Vec<HexFile> {
    let sound = |what: &str, lines: &[String]| HexFile::sound(what, whole(lines));
    let full = data(0, &filler(32));
    let one = |address, value| data(address, &[value]);
    let mut files = vec![
        sound("a byte twice", &[one(5, 1), one(5, 2)]),
        sound("a byte twice, then 0", &[one(5, 1), one(5, 0)]),
        sound("0, then another", &[one(5, 0), one(5, 9)]),
        sound("a byte thrice", &[one(5, 1), one(5, 2), one(5, 1)]),
        sound("the same record twice", &[full.clone(), full.clone()]),
        sound(
            "a hole of 0 in a full memory",
            &[full.clone(), data(8, &[0; 7])],
        ),
        sound(
            "a full memory on top of a byte",
            &[one(5, 200), full.clone()],
        ),
        sound("all 0 on top of all", &[full.clone(), data(0, &[0; 32])]),
        sound("no data on top", &[full.clone(), data(8, &[])]),
        sound(
            "on top by type 04 between",
            &[full, upper(0), one(31, 0xEE)],
        ),
    ];
    for shift in 1..8 {
        let low = data(8, &[0xAA; 8]);
        let high = data(8 + shift, &[0x55; 8]);
        let what = |later: &str| format!("overlapping by {}, the {later} one later", 8 - shift);
        files.push(sound(&what("higher"), &[low.clone(), high.clone()]));
        files.push(sound(&what("lower"), &[high, low]));
    }
    files
}

fn orders() -> Vec<HexFile> {
    let image = filler(256);
    let lines = covered(&image, 8);
    let reversed: Vec<String> = lines.iter().rev().cloned().collect();
    let (even, odd): (Vec<_>, Vec<_>) = lines
        .iter()
        .cloned()
        .enumerate()
        .partition(|(index, _)| index % 2 == 0);
    let other: Vec<String> = odd.into_iter().chain(even).map(|(_, line)| line).collect();
    let every_third: Vec<String> = lines.iter().step_by(3).cloned().collect();
    let sound = |what: &str, lines: &[String]| HexFile::sound(what, whole(lines)).lent(256);
    vec![
        sound("the last record first", &reversed),
        sound("the odd records first", &other),
        sound("every third record", &every_third),
        sound("no record but the last byte", &[data(255, &[0x77])]),
        sound("no record at all", &[]),
        HexFile::sound("the small file", text(&small())),
        HexFile::sound(
            "more lines than memory has bytes",
            whole(&vec![data(3, &[4]); 5000]),
        ),
    ]
}

/// A record of each length, in a memory that just holds it or the next longer one.
fn lengths_of_records() -> Vec<HexFile> {
    let file = |count: usize| {
        let length = count.max(16).next_multiple_of(4);
        let address = length - count;
        let what = format!("a record of {count} bytes");
        HexFile::sound(what, whole(&[data(address as u16, &filler(count))])).lent(length)
    };
    (0..=255).map(file).collect()
}

/// Lines that descriptions of the format give.
fn public_examples() -> Vec<HexFile> {
    let lines = [
        ":10010000214601360121470136007EFE09D2190140",
        ":100110002146017E17C20001FF5F16002148011928",
        ":10012000194E79234623965778239EDA3F01B2CAA7",
        ":100130003F0156702B5E712B722B732146013421C7",
    ];
    let out_of_order = [
        ":10001300AC12AD13AE10AF1112002F8E0E8F0F2244",
        ":10000300E50B250DF509E50A350CF5081200132259",
        ":03000000020023D8",
        ":0C002300787FE4F6D8FD7581130200031D",
        ":10002F00EFF88DF0A4FFEDC5F0CEA42EFEEC88F016",
        ":04003F00A42EFE22CB",
    ];
    let sound = |what: &str, text: Vec<u8>| HexFile::sound(what, text).lent(512);
    vec![
        sound("a public example of five lines", whole(&lines)),
        sound(
            "a public example with CR LF",
            ended(&[&lines[..], &[END]].concat(), "\r\n"),
        ),
        sound(
            "a public example of one line",
            whole(&[":0300300002337A1E"]),
        ),
        sound(
            "another of one line",
            whole(&[":0B0010006164647265737320676170A7"]),
        ),
        sound(
            "a public example of six lines out of order",
            whole(&out_of_order),
        ),
    ]
}
