//! Little-endian words and bytes in a lent memory.

/// The word that holds `address`; its low two bits are ignored. The caller knows that it is inside.
pub fn word(memory: &[u8], address: u32) -> u32 {
    let first = (address & !3) as usize;
    let mut value = 0;
    for place in (0..4).rev() {
        value = value << 8 | u32::from(memory[first + place]);
    }
    value
}

/// Writes the word that holds `address`.
pub fn set_word(memory: &mut [u8], address: u32, value: u32) {
    let first = (address & !3) as usize;
    for place in 0..4 {
        memory[first + place] = (value >> (8 * place)) as u8;
    }
}

/// Is the word that holds `address` inside a memory of `length` bytes, a multiple of 4?
pub fn inside(address: u32, length: usize) -> bool {
    u64::from(address) < length as u64
}

/// The word at `address`, or nothing outside memory.
pub fn fetch(memory: &[u8], address: u32) -> Option<u32> {
    inside(address, memory.len()).then(|| word(memory, address))
}

/// The same with one test for the four bytes; `address` is a multiple of 4.
pub fn fetch_at_once(memory: &[u8], address: u32) -> Option<u32> {
    let first = address as usize;
    let bytes = memory.get(first..first + 4)?;
    Some(u32::from_le_bytes(bytes.try_into().expect("four bytes")))
}

/// What a load takes from `address`: a byte zero-extended, or the word rotated right by 8 times
/// the low two address bits.
pub fn load(memory: &[u8], address: u32, byte: bool) -> u32 {
    if byte {
        u32::from(memory[address as usize])
    } else {
        word(memory, address).rotate_right(8 * (address & 3))
    }
}

/// What a store puts at `address`: the low byte, or the word, not rotated.
pub fn store(memory: &mut [u8], address: u32, value: u32, byte: bool) {
    if byte {
        memory[address as usize] = value as u8;
    } else {
        set_word(memory, address, value);
    }
}

/// A memory as the core has it: it reads the bytes as they are, and whoever lends them may watch what
/// it writes.
pub trait Lent {
    fn bytes(&self) -> &[u8];
    fn store(&mut self, address: u32, value: u32, byte: bool);
}

impl Lent for [u8] {
    fn bytes(&self) -> &[u8] {
        self
    }

    fn store(&mut self, address: u32, value: u32, byte: bool) {
        store(self, address, value, byte);
    }
}
