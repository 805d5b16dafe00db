//! The Intel HEX texts that are timed, all of one memory of random bytes.

use interpreter::hex;
use interpreter::random::Random;

/// The longest that a memory is.
const LENGTH: usize = 65_536;

/// The upper half of the addresses is 0, which it is without this record too.
const UPPER_HALF: [u8; 6] = [2, 0, 0, 4, 0, 0];
const END: [u8; 4] = [0, 0, 0, 1];

pub struct TimedText {
    pub name: &'static str,
    pub text: Vec<u8>,
}

pub fn image() -> Vec<u8> {
    let mut random = Random::new(1);
    (0..LENGTH).map(|_| random.word() as u8).collect()
}

/// The writer's text is the first.
pub fn texts(image: &[u8]) -> [TimedText; 3] {
    let short = hex::text(image).expect("a good length");
    let upper_half = std::iter::once(line(&UPPER_HALF));
    let middle: Vec<String> = upper_half.chain(lines(image, 32)).collect();
    let long: Vec<String> = lines(image, 255).collect();
    [
        ("16 bytes a record, LF", short),
        (
            "32 bytes a record, CR LF, type 04 first",
            middle.join("\r\n").into(),
        ),
        (
            "255 bytes a record, LF, lower case",
            long.join("\n").to_ascii_lowercase().into(),
        ),
    ]
    .map(|(name, text)| TimedText { name, text })
}

/// The image by records of so many bytes, a shorter last one, and the end; an end of the last line.
fn lines(image: &[u8], count: usize) -> impl Iterator<Item = String> + '_ {
    let records = image.chunks(count).enumerate();
    let data = records.map(move |(index, bytes)| {
        let [high, low] = ((index * count) as u16).to_be_bytes();
        let head = [bytes.len() as u8, high, low, 0];
        line(&[&head[..], bytes].concat())
    });
    data.chain([line(&END), String::new()])
}

/// The line of a record, whose sum comes last.
fn line(record: &[u8]) -> String {
    let sum = record.iter().fold(0u8, |sum, &byte| sum.wrapping_sub(byte));
    let pairs = record.iter().chain([&sum]);
    let pairs: String = pairs.map(|byte| format!("{byte:02X}")).collect();
    format!(":{pairs}")
}
