//! The format described slowly: a sound line is the one line made of its fields, and a byte of memory
//! is the last of its namings when all are sorted by place.

use interpreter::hex::Refused;

/// The memory of this length after the text, or its refusal.
pub fn read(text: &[u8], length: usize) -> Result<Vec<u8>, Refused> {
    if !(4..=16_384).any(|words| 4 * words == length) {
        return Err(Refused { number: 1, line: 0 });
    }
    let lines = lines(text);
    // There is one sound end record.
    let end = lines
        .iter()
        .position(|line| line.eq_ignore_ascii_case(b":00000001FF"));
    let before_end = &lines[..end.unwrap_or(lines.len())];

    let mut records: Vec<Option<Record>> = before_end.iter().map(|line| record(line)).collect();
    let unsound = records.iter().position(Option::is_none);
    records.truncate(unsound.unwrap_or(records.len()));
    let sound: Vec<Record> = records.into_iter().flatten().collect();
    // A type 04 holds for the records from it up to the next.
    let groups = sound.chunk_by(|_, next| next.kind != 4);
    let namings: Vec<Vec<Naming>> = groups.flat_map(namings).collect();
    let beyond = namings
        .iter()
        .position(|line| line.iter().any(|&(place, _)| place >= length as u64));

    // What is beyond is found in lines before the unsound one only.
    if let Some(index) = beyond {
        return Err(Refused {
            number: 42,
            line: index + 1,
        });
    }
    if let Some(index) = unsound {
        return Err(Refused {
            number: 41,
            line: index + 1,
        });
    }
    if end.is_none() {
        return Err(Refused {
            number: 43,
            line: lines.len(),
        });
    }
    let mut namings = namings.concat();
    namings.sort_by_key(|&(place, _)| place);
    let last = namings
        .chunk_by(|one, other| one.0 == other.0)
        .map(|same| same[same.len() - 1]);
    let mut memory = vec![0; length];
    last.for_each(|(place, value)| memory[place as usize] = value);
    Ok(memory)
}

/// A place and the byte named there.
type Naming = (u64, u8);

struct Record {
    kind: u32,
    address: u32,
    data: Vec<u8>,
}

fn lines(text: &[u8]) -> Vec<Vec<u8>> {
    let pieces = text.split(|&byte| byte == b'\n');
    let mut lines: Vec<Vec<u8>> = pieces.map(<[u8]>::to_vec).collect();
    let rest = lines.pop().unwrap_or_default();
    for line in &mut lines {
        if line.ends_with(b"\r") {
            line.pop();
        }
    }
    if !rest.is_empty() {
        lines.push(rest);
    }
    lines
}

/// The record whose line this is, the end record's apart.
fn record(line: &[u8]) -> Option<Record> {
    let line = String::from_utf8(line.to_ascii_uppercase()).ok()?;
    let number = |from: usize, to: usize| u32::from_str_radix(line.get(from..to)?, 16).ok();
    let (count, address, kind) = (number(1, 3)?, number(3, 7)?, number(7, 9)?);
    let places = (0..count as usize).map(|index| 9 + 2 * index);
    let data: Option<Vec<u32>> = places.map(|place| number(place, place + 2)).collect();
    let data = data?;
    let sum = count + address / 256 + address % 256 + kind + data.iter().sum::<u32>();
    let digits: String = data.iter().map(|byte| format!("{byte:02X}")).collect();
    let sum = (256 - sum % 256) % 256;
    if line != format!(":{count:02X}{address:04X}{kind:02X}{digits}{sum:02X}") {
        return None;
    }
    let taken = kind == 0 || (kind, address, count) == (4, 0, 2);
    let data = data.iter().map(|&byte| byte as u8).collect();
    taken.then_some(Record {
        kind,
        address,
        data,
    })
}

/// What each record of a group names, the first being its type 04, if it has one.
fn namings(group: &[Record]) -> Vec<Vec<Naming>> {
    let upper = match &group[0] {
        Record { kind: 4, data, .. } => 256 * u64::from(data[0]) + u64::from(data[1]),
        _ => 0,
    };
    let first = |record: &Record| 65_536 * upper + u64::from(record.address);
    let named = |record: &Record| match record.kind {
        0 => (first(record)..).zip(record.data.clone()).collect(),
        _ => Vec::new(),
    };
    group.iter().map(named).collect()
}
