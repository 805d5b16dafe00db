//! One walk over a block's list: the stop 24 or 25 that it meets, and how many registers it looked
//! at. Neither machine finds its stops by it.

use crate::answers::{FETCHED, OUTSIDE};
use crate::arm::{counter, decode, forbidden, Block, Instruction};
use crate::memory;
use crate::plain::Plain;

#[derive(Clone, Copy, Debug, PartialEq, Eq, Default)]
pub struct Walk {
    /// 24, 25 or none.
    pub stop: u32,
    /// The named registers up to and with the first that meets 24, else all of them.
    pub looked: u32,
}

/// The walk over the named registers, lowest first, of a block at `a` whose base isn't R15.
pub fn walk(block: &Block, r: &[u32; 15], a: u32, length: u32) -> Walk {
    let names = block.names();
    let mut address = lowest(block, r[block.rn], 4 * names.len() as u32);
    let mut walk = Walk::default();
    for _ in names {
        walk.looked += 1;
        if address >= length {
            // It is given also where a register below met 25.
            walk.stop = OUTSIDE;
            break;
        }
        if !block.load && is_next(address, a) {
            walk.stop = FETCHED;
        }
        address = address.wrapping_add(4);
    }
    walk
}

/// The walk of the word at the plain machine's A, whatever its condition and whatever stop the
/// record holds. Nothing is walked if the memory is another, no word stands there, or it is no block
/// or one that breaks a rule of 23.
pub fn due(plain: &Plain, memory: &[u8]) -> Walk {
    if memory.len() as u64 != u64::from(plain.length) {
        return Walk::default();
    }
    match word_at(memory, plain.a).map(decode) {
        Some(it @ Instruction::Block(block)) if !forbidden(&it) => {
            walk(&block, &plain.r, plain.a, plain.length)
        }
        _ => Walk::default(),
    }
}

/// The word of this address; bytes past the last whole word, which only a bad record's memory can
/// have, are none.
fn word_at(memory: &[u8], address: u32) -> Option<u32> {
    memory::fetch(&memory[..memory.len() / 4 * 4], address)
}

/// The lowest address of a block that moves `size` bytes. Of these bytes and a word more, from the
/// base up or below it, the first word is left out where P is U, else the last.
fn lowest(block: &Block, base: u32, size: u32) -> u32 {
    let from = if block.up {
        base
    } else {
        base.wrapping_sub(size)
    };
    let skipped = if block.before == block.up { 4 } else { 0 };
    from.wrapping_add(skipped) & !3
}

/// The word at A+4 or at A+8, which are counter values.
fn is_next(address: u32, a: u32) -> bool {
    address == counter(a.wrapping_add(4)) || address == counter(a.wrapping_add(8))
}
