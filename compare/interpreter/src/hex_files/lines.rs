//! Lines and texts put together from records.

/// The end record.
pub const END: &str = ":00000001FF";

/// A colon and the pairs of these bytes, whatever they are.
pub fn pairs(bytes: &[u8]) -> String {
    let pairs = bytes.iter().map(|byte| format!("{byte:02X}"));
    format!(":{}", pairs.collect::<String>())
}

/// The same with a last byte that makes the sum fit.
pub fn summed(bytes: &[u8]) -> String {
    let mut all = bytes.to_vec();
    all.push(fitting(bytes));
    pairs(&all)
}

/// The byte that brings the sum of these to 0.
pub fn fitting(bytes: &[u8]) -> u8 {
    let sum: u32 = bytes.iter().map(|&byte| u32::from(byte)).sum();
    (256 - sum % 256) as u8
}

/// Count, address, type and data of a record, without the sum.
pub fn head_and_data(kind: u8, address: u16, data: &[u8]) -> Vec<u8> {
    let mut bytes = vec![data.len() as u8, (address >> 8) as u8, address as u8, kind];
    bytes.extend(data);
    bytes
}

pub fn record(kind: u8, address: u16, data: &[u8]) -> String {
    summed(&head_and_data(kind, address, data))
}

pub fn data(address: u16, data: &[u8]) -> String {
    record(0, address, data)
}

/// The upper half of later addresses.
pub fn upper(half: u16) -> String {
    record(4, 0, &half.to_be_bytes())
}

/// So many bytes that all differ from 0, and from their neighbours.
pub fn filler(count: usize) -> Vec<u8> {
    (0..count)
        .map(|index| 1 + (7 * index % 255) as u8)
        .collect()
}

/// The lines, each with this end.
pub fn ended<L: AsRef<[u8]>>(lines: &[L], end: &str) -> Vec<u8> {
    let with_end = |line: &L| [line.as_ref(), end.as_bytes()].concat();
    lines.iter().flat_map(with_end).collect()
}

/// The lines, each with LF.
pub fn text<L: AsRef<[u8]>>(lines: &[L]) -> Vec<u8> {
    ended(lines, "\n")
}

/// These lines and the end record, each with LF.
pub fn whole<L: AsRef<[u8]>>(lines: &[L]) -> Vec<u8> {
    let mut text = text(lines);
    text.extend(format!("{END}\n").bytes());
    text
}

/// A small file with a line of each type, and data in two places of 32 bytes.
pub fn small() -> Vec<String> {
    small_records().iter().map(|bytes| summed(bytes)).collect()
}

/// The bytes of its records, without their sums.
pub fn small_records() -> Vec<Vec<u8>> {
    vec![
        head_and_data(0, 0, &[0xDE, 0xAD, 0xBE, 0xEF]),
        head_and_data(4, 0, &[0, 0]),
        head_and_data(0, 0x18, &[0x01, 0x80, 0xFF, 0x7E]),
        head_and_data(1, 0, &[]),
    ]
}

/// The small file with one line exchanged for another.
pub fn small_with(index: usize, line: impl Into<Vec<u8>>) -> Vec<u8> {
    let mut lines: Vec<Vec<u8>> = small().into_iter().map(String::into_bytes).collect();
    lines[index] = line.into();
    text(&lines)
}

/// A byte as a topic names it.
pub fn named(byte: u8) -> String {
    format!("b'{}'", byte.escape_ascii())
}
