//! The plain machine: an instruction at a time.

use crate::answers::*;
use crate::arm::{
    compute, constant, counter, counter_of, decode, forbidden, passes, product, r15_word,
    shift_by_amount, shift_by_register, Block, Branch, Instruction, Multiply, Offset, Operand,
    Processing, Shifted, Single, C,
};
use crate::memory;

#[derive(Clone, Debug, Default, PartialEq, Eq)]
pub struct Plain {
    pub r: [u32; 15],
    pub a: u32,
    pub flags: u32,
    pub stop: u32,
    pub length: u32,
}

impl Plain {
    /// The answer and the record; a refused start gives a zeroed record.
    pub fn start(r: [u32; 15], flags: u32, entry: u32, memory: &[u8]) -> (u32, Plain) {
        let refusal = start_refusal(memory.len() as u64, entry, flags);
        if refusal != FINE {
            return (refusal, Plain::default());
        }
        let plain = Plain {
            r,
            a: entry,
            flags,
            stop: 0,
            length: memory.len() as u32,
        };
        (FINE, plain)
    }

    /// The answer and the number of instructions done; one that stops isn't done.
    pub fn run(&mut self, memory: &mut [u8], count: u64) -> (u32, u64) {
        if memory.len() as u64 != u64::from(self.length) {
            return (OTHER_MEMORY, 0);
        }
        if self.is_bad() {
            return (BAD_RECORD, 0);
        }
        if count > MOST_BUDGET {
            return (BUDGET, 0);
        }
        if self.stop != 0 {
            return (self.stop, 0);
        }
        for done in 0..count {
            let stop = self.step(memory);
            if stop != 0 {
                return (stop, done);
            }
        }
        (FINE, count)
    }

    fn is_bad(&self) -> bool {
        length_is_bad(u64::from(self.length))
            || self.a % 4 != 0
            || self.a >= COUNTER_LIMIT
            || self.flags > 15
            || !stop_is_known(self.stop)
    }

    /// Does the instruction at A, or sets the stop that it meets and changes nothing else. Gives
    /// the stop, or 0.
    pub fn step(&mut self, memory: &mut [u8]) -> u32 {
        match self.advance(memory) {
            Ok(next) => {
                self.a = next;
                0
            }
            Err(stop) => {
                self.stop = stop;
                stop
            }
        }
    }

    /// The next A, or the stop.
    fn advance(&mut self, memory: &mut [u8]) -> Result<u32, u32> {
        let word = memory::fetch(memory, self.a).ok_or(NO_WORD)?;
        let following = counter(self.a.wrapping_add(4));
        if !passes(word >> 28, self.flags) {
            return Ok(following);
        }
        let instruction = decode(word);
        if instruction == Instruction::Other {
            return Err(OTHER);
        }
        if forbidden(&instruction) {
            return Err(FORBIDDEN);
        }
        let stored = match instruction {
            Instruction::Processing(it) => self.process(&it),
            Instruction::Single(it) => self.single(&it, memory)?,
            Instruction::Block(it) => self.block(&it, memory)?,
            Instruction::Branch(it) => Some(self.branch(&it)),
            Instruction::Multiply(it) => self.multiply(&it),
            Instruction::Other => unreachable!(),
        };
        Ok(stored.unwrap_or(following))
    }

    /// A register as Rn or as a base, R15 being `ahead` past A, alone.
    fn as_rn(&self, name: usize, ahead: u32) -> u32 {
        if name == 15 {
            counter(self.a.wrapping_add(ahead))
        } else {
            self.r[name]
        }
    }

    /// A register as Rm or to be stored, R15 being the flags with `ahead` past A.
    fn with_flags(&self, name: usize, ahead: u32) -> u32 {
        if name == 15 {
            r15_word(self.flags, self.a.wrapping_add(ahead))
        } else {
            self.r[name]
        }
    }

    /// Writes a result or a loaded word; the counter if it went there.
    fn set(&mut self, name: usize, value: u32) -> Option<u32> {
        if name == 15 {
            Some(counter_of(value))
        } else {
            self.r[name] = value;
            None
        }
    }

    fn process(&mut self, it: &Processing) -> Option<u32> {
        let ahead = if matches!(it.operand, Operand::ByRegister { .. }) {
            12
        } else {
            8
        };
        let operand = self.operand(it.operand, ahead);
        let computed = compute(it.operation, self.as_rn(it.rn, ahead), operand, self.flags);
        if it.sets {
            self.flags = if it.rd == 15 {
                computed.result >> 28
            } else {
                computed.flags
            };
        }
        if it.only_compares() {
            None
        } else {
            self.set(it.rd, computed.result)
        }
    }

    fn operand(&self, operand: Operand, ahead: u32) -> Shifted {
        let carry = self.flags & C != 0;
        match operand {
            Operand::Constant { rotation, value } => constant(rotation, value, carry),
            Operand::ByAmount { rm, shift, amount } => {
                shift_by_amount(shift, amount, self.with_flags(rm, ahead), carry)
            }
            Operand::ByRegister { rm, shift, rs } => {
                shift_by_register(shift, self.r[rs], self.with_flags(rm, ahead), carry)
            }
        }
    }

    fn single(&mut self, it: &Single, memory: &mut [u8]) -> Result<Option<u32>, u32> {
        let base = self.as_rn(it.rn, 8);
        let offset = match it.offset {
            Offset::Number(number) => number,
            Offset::Shifted { rm, shift, amount } => {
                shift_by_amount(shift, amount, self.r[rm], self.flags & C != 0).value
            }
        };
        let changed = if it.up {
            base.wrapping_add(offset)
        } else {
            base.wrapping_sub(offset)
        };
        let address = if it.before { changed } else { base };
        if !memory::inside(address, memory.len()) {
            return Err(OUTSIDE);
        }
        if !it.load && self.is_fetched(address) {
            return Err(FETCHED);
        }
        if !it.load {
            memory::store(memory, address, self.with_flags(it.rd, 12), it.byte);
        }
        if it.writes_base() {
            self.r[it.rn] = changed;
        }
        if !it.load {
            return Ok(None);
        }
        let value = memory::load(memory, address, it.byte);
        Ok(self.set(it.rd, value))
    }

    fn block(&mut self, it: &Block, memory: &mut [u8]) -> Result<Option<u32>, u32> {
        let names = it.names();
        let base = self.r[it.rn];
        let size = 4 * names.len() as u32;
        let changed = if it.up {
            base.wrapping_add(size)
        } else {
            base.wrapping_sub(size)
        };
        let lowest = match (it.up, it.before) {
            (true, false) => base,
            (true, true) => base.wrapping_add(4),
            (false, false) => base.wrapping_sub(size).wrapping_add(4),
            (false, true) => base.wrapping_sub(size),
        };
        let places: Vec<(usize, u32)> = names
            .iter()
            .enumerate()
            .map(|(index, &name)| (name, (lowest & !3).wrapping_add(4 * index as u32)))
            .collect();
        if places
            .iter()
            .any(|&(_, address)| !memory::inside(address, memory.len()))
        {
            return Err(OUTSIDE);
        }
        if it.load {
            if it.w {
                self.r[it.rn] = changed;
            }
            let mut stored = None;
            for (name, address) in places {
                stored = self.set(name, memory::word(memory, address));
            }
            return Ok(stored);
        }
        if places.iter().any(|&(_, address)| self.is_fetched(address)) {
            return Err(FETCHED);
        }
        for (name, address) in places {
            let is_new = name == it.rn && name != names[0] && it.w;
            let value = if is_new {
                changed
            } else {
                self.with_flags(name, 12)
            };
            memory::set_word(memory, address, value);
        }
        if it.w {
            self.r[it.rn] = changed;
        }
        Ok(None)
    }

    fn branch(&mut self, it: &Branch) -> u32 {
        if it.link {
            self.r[14] = r15_word(self.flags, self.a.wrapping_add(4));
        }
        counter(self.a.wrapping_add(8).wrapping_add(it.distance))
    }

    fn multiply(&mut self, it: &Multiply) -> Option<u32> {
        let more = if it.accumulate { self.r[it.rn] } else { 0 };
        let computed = product(self.r[it.rm], self.r[it.rs], more, self.flags);
        if it.sets {
            self.flags = computed.flags;
        }
        self.set(it.rd, computed.result)
    }

    /// The word of this address stands at A+4 or A+8.
    fn is_fetched(&self, address: u32) -> bool {
        let word = address & !3;
        [4, 8].iter().any(|ahead| counter(self.a + ahead) == word)
    }
}
