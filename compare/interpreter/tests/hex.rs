//! Intel HEX against slow descriptions: the writer's lines by their fields, the reader on public
//! examples, on the directed files by what their topics say, and on random ones.

mod common;

use common::slow_hex;
use interpreter::hex::{line, read, text, Refused};
use interpreter::hex_files::{directed, random, HexFile};
use interpreter::random::Random;
use std::collections::{BTreeMap, BTreeSet};

const END: &str = ":00000001FF\n";

/// Every multiple of 4 in 16..=600, and the longest two.
fn lengths() -> impl Iterator<Item = usize> {
    (16..=600).step_by(4).chain([65_532, 65_536])
}

fn image(random: &mut Random, length: usize) -> Vec<u8> {
    (0..length).map(|_| random.word() as u8).collect()
}

/// A memory whose old content would show.
fn used(length: usize) -> Vec<u8> {
    (0..length).map(|place| 0xA5 ^ place as u8 | 1).collect()
}

/// The memory that the text comes to, over old content.
fn read_new(text: &[u8], length: usize) -> Result<Vec<u8>, Refused> {
    let mut memory = used(length);
    read(text, &mut memory).map(|()| memory)
}

/// The line of one record, by the sum of its fields.
fn described(memory: &[u8], number: usize) -> String {
    let bytes = &memory[16 * number..memory.len().min(16 * number + 16)];
    let digits: String = bytes.iter().map(|byte| format!("{byte:02X}")).collect();
    let data: usize = bytes.iter().map(|&byte| usize::from(byte)).sum();
    let sum = bytes.len() + 16 * number / 256 + 16 * number % 256 + data;
    let sum = (256 - sum % 256) % 256;
    format!(
        ":{:02X}{:04X}00{digits}{sum:02X}\n",
        bytes.len(),
        16 * number
    )
}

#[test]
fn lines_written() {
    let mut random = Random::new(41);
    for length in lengths() {
        let memory = image(&mut random, length);
        let count = length.div_ceil(16);
        let mut all: Vec<String> = (0..count)
            .map(|number| described(&memory, number))
            .collect();
        all.push(END.into());
        for (number, expected) in (0..).zip(&all) {
            let line = line(&memory, number).unwrap();
            assert_eq!(line, expected.as_bytes(), "{length}, line {number}");
            assert!(line.len() <= 44);
        }
        assert_eq!(
            text(&memory).unwrap(),
            all.concat().into_bytes(),
            "{length}"
        );
        // 16 times the last ones is small modulo 2^32.
        let count = count as u32;
        for past in [
            count + 1,
            count + 2,
            2 * count + 1,
            4097,
            65_536,
            u32::MAX,
            1 << 28,
            (1 << 28) + 1,
            1 << 31,
        ] {
            assert_eq!(line(&memory, past), Ok(vec![]), "{length}, line {past}");
        }
    }
}

#[test]
fn shorter_last_lines() {
    let lines = |length| String::from_utf8(text(&used(length)[..]).unwrap()).unwrap();
    let counts = |length| -> Vec<String> {
        lines(length)
            .lines()
            .map(|line| line[1..3].into())
            .collect()
    };
    assert_eq!(counts(16), ["10", "00"]);
    assert_eq!(counts(20), ["10", "04", "00"]);
    assert_eq!(counts(24), ["10", "08", "00"]);
    assert_eq!(counts(28), ["10", "0C", "00"]);
    assert_eq!(counts(32), ["10", "10", "00"]);
    assert_eq!(lines(65_536).lines().count(), 4097);
    assert_eq!(lines(65_532).lines().nth(4095).unwrap()[..9], *":0CFFF000");
}

#[test]
fn a_known_text() {
    let lines = ":10000000000102030405060708090A0B0C0D0E0F78\n:0400100010111213A6\n:00000001FF\n";
    let memory: Vec<u8> = (0..20).collect();
    assert_eq!(text(&memory).unwrap(), lines.as_bytes());
    assert_eq!(read_new(lines.as_bytes(), 20), Ok(memory));
}

#[test]
fn what_the_writer_refuses() {
    for length in (0..=40).chain(65_530..=65_560).chain([131_072]) {
        let memory = used(length);
        let good = (4..=16_384).any(|words| 4 * words == length);
        for number in [0, 1, 2, 4096, u32::MAX] {
            assert_eq!(
                line(&memory, number).err(),
                (!good).then_some(1),
                "{length}"
            );
        }
        assert_eq!(text(&memory).err(), (!good).then_some(1), "{length}");
    }
}

#[test]
fn round_trips() {
    let mut random = Random::new(42);
    for length in lengths() {
        for memory in [
            image(&mut random, length),
            vec![0; length],
            vec![0xFF; length],
        ] {
            let written = text(&memory).unwrap();
            assert_eq!(read_new(&written, length).as_ref(), Ok(&memory));
            let written = String::from_utf8(written).unwrap();
            let other = written.to_lowercase().replace('\n', "\r\n");
            assert_eq!(read_new(other.as_bytes(), length).as_ref(), Ok(&memory));
            // A longer memory is 0 behind it, and a shorter one is too short.
            if length < 65_536 {
                let mut longer = memory.clone();
                longer.extend([0; 4]);
                assert_eq!(read_new(written.as_bytes(), length + 4), Ok(longer));
            }
            if length > 16 {
                let last = length.div_ceil(16);
                let refused = Refused {
                    number: 42,
                    line: last,
                };
                assert_eq!(read_new(written.as_bytes(), length - 4), Err(refused));
            }
        }
    }
}

/// These lines and the end record, each with LF.
fn ended(lines: &[&str]) -> String {
    let lines: String = lines.iter().map(|line| format!("{line}\n")).collect();
    lines + END
}

/// The bytes that a text of these lines and the end record puts at a place of 512 bytes, all else 0.
fn assert_at(lines: &[&str], place: usize, bytes: &[u8]) {
    let memory = read_new(ended(lines).as_bytes(), 512).unwrap();
    assert_eq!(&memory[place..place + bytes.len()], bytes);
    assert!(memory[..place].iter().all(|&byte| byte == 0));
    assert!(memory[place + bytes.len()..].iter().all(|&byte| byte == 0));
}

#[test]
fn public_examples() {
    assert_at(&[], 0, &[]);
    assert_at(&[":0300300002337A1E"], 0x30, &[0x02, 0x33, 0x7A]);
    assert_at(&[":0B0010006164647265737320676170A7"], 0x10, b"address gap");
    assert_at(
        &[":10010000214601360121470136007EFE09D2190140"],
        0x100,
        b"\x21\x46\x01\x36\x01\x21\x47\x01\x36\x00\x7E\xFE\x09\xD2\x19\x01",
    );
    assert_at(
        &[":020000040000FA", ":0300300002337A1E"],
        0x30,
        &[0x02, 0x33, 0x7A],
    );
    let refused = |lines: &[&str], number, line| {
        assert_eq!(
            read_new(ended(lines).as_bytes(), 512),
            Err(Refused { number, line })
        );
    };
    refused(&[":020000040800F2", ":0300300002337A1E"], 42, 2);
    refused(&[":10C20000E0A5E6F6FDFFE0AEE00FE6FCFDFFE6FD93"], 42, 1);
    refused(&[":020000021200EA"], 41, 1);
    refused(&[":0400000300003800C1"], 41, 1);
    refused(&[":04000005000000CD2A"], 41, 1);
    refused(&[":0300300002337A1F"], 41, 1);
}

/// One file as `read` and the slow description have it, and what its topic has to begin with.
fn checked(file: &HexFile) -> (u32, String) {
    let mut memory = used(file.length);
    let result = read(&file.text, &mut memory);
    let expected = slow_hex::read(&file.text, file.length);
    assert_eq!(
        result.err(),
        expected.as_ref().err().copied(),
        "{}",
        file.topic
    );
    let after = match &expected {
        Ok(memory) => memory.clone(),
        Err(Refused { number: 1, .. }) => used(file.length),
        Err(_) => vec![0; file.length],
    };
    assert!(memory == after, "{}", file.topic);
    match result {
        Ok(()) => (0, "0: ".into()),
        Err(Refused { number: 1, line }) => {
            assert_eq!(line, 0);
            (1, "1: ".into())
        }
        Err(Refused { number: 43, line }) => (43, format!("43, {line} lines: ")),
        Err(Refused { number, line }) => (number, format!("{number}, line {line}: ")),
    }
}

#[test]
fn directed_files() {
    let files = directed();
    let mut numbers = BTreeMap::new();
    for file in &files {
        let (number, beginning) = checked(file);
        assert!(
            file.topic.starts_with(&beginning),
            "{} is {beginning}",
            file.topic
        );
        *numbers.entry(number).or_insert(0) += 1;
    }
    println!("{} directed files: {numbers:?}", files.len());
    assert!(numbers.keys().eq(&[0, 1, 41, 42, 43]), "{numbers:?}");
    let topics: BTreeSet<&str> = files.iter().map(|file| &file.topic[..]).collect();
    assert_eq!(topics.len(), files.len());
}

/// Some directed files' memories, by hand.
#[test]
fn what_is_left() {
    let files = directed();
    let memory = |topic: &str| -> Vec<u8> {
        let file = files.iter().find(|file| file.topic == topic);
        let file = file.unwrap_or_else(|| panic!("no file {topic}"));
        read_new(&file.text, file.length).unwrap()
    };
    let small = [
        &[0xDE, 0xAD, 0xBE, 0xEF][..],
        &[0; 20],
        &[0x01, 0x80, 0xFF, 0x7E],
        &[0; 4],
    ];
    assert_eq!(memory("0: the small file"), small.concat());
    assert_eq!(memory("0: ends \\r\\n \\n \\r\\n "), small.concat());
    assert_eq!(memory("0: the end record first"), [0; 32]);
    assert_eq!(memory("0: a byte twice, then 0"), [0; 32]);
    assert_eq!(memory("0: all 0 on top of all"), [0; 32]);
    let higher = [&[0; 8][..], &[0xAA; 3], &[0x55; 8], &[0; 13]];
    let lower = [&[0; 8][..], &[0xAA; 8], &[0x55; 3], &[0; 13]];
    let overlapping = |later| memory(&format!("0: overlapping by 5, the {later} one later"));
    assert_eq!(overlapping("higher"), higher.concat());
    assert_eq!(overlapping("lower"), lower.concat());
    let hole = memory("0: a hole of 0 in a full memory");
    assert!(hole
        .iter()
        .enumerate()
        .all(|(place, &byte)| (byte == 0) == (8..15).contains(&place)));
    let every: Vec<u8> = (0..=u8::MAX).collect();
    for case in ["upper case", "lower case"] {
        let memory = memory(&format!("0: every byte in {case}"));
        assert_eq!(memory[..0xFA], every[..0xFA]);
        assert_eq!(memory[0xFA..], [0xAF, 0xFA, 0xBC, 0xDE, 0xED, 0xCB]);
    }
    assert_eq!(
        memory("0: data, past and back, memory of 16")[..6],
        [0, 0, 0, 0, 2, 0]
    );
}

/// The same seed gives the same files.
#[test]
fn files_are_deterministic() {
    assert!(directed() == directed());
    let some = |seed| -> Vec<HexFile> {
        let mut numbers = Random::new(seed);
        (0..100).map(|_| random(&mut numbers)).collect()
    };
    assert!(some(1) == some(1));
    assert!(some(1) != some(2));
}

/// Good files are taken, and damaged ones come to each number.
#[test]
fn random_files() {
    let mut numbers = Random::new(43);
    let mut seen: BTreeMap<(u32, usize), u32> = BTreeMap::new();
    for _ in 0..20_000 {
        let file = random(&mut numbers);
        let (number, _) = checked(&file);
        let edits = usize::from(!file.topic.ends_with(" 0 edits"));
        *seen.entry((number, edits)).or_insert(0) += 1;
    }
    println!("random files by number and damage: {seen:?}");
    assert!(!seen.keys().any(|&(number, edits)| edits == 0 && number > 1));
    for number in [0, 41, 42, 43] {
        assert!(seen[&(number, 1)] > 200, "{seen:?}");
    }
}
