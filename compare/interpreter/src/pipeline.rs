//! The core: a cycle at a time, with fetch registers and latches. The product's core is timed
//! against it: the parts of a cycle, called from one place each, end up in one loop. Those that take
//! the memory are there once for each kind of it; others that would be left out have an attribute.

use crate::answers::*;
use crate::arm::{
    can_store_counter, compute, constant, counter, counter_of, cycles_by_rs, decode, decode_inline,
    decode_multiply, forbidden, passes, product, r15_word, shift_by_amount, shift_by_register,
    Block, Branch, Instruction, Multiply, Offset, Operand, Processing, Shifted, Single, C,
};
use crate::memory::{self, Lent};
use crate::sums::{alone, before_refills, loading, storing, Sums, REFILLS};

/// What the next cycle does.
#[derive(Clone, Copy, Debug, PartialEq, Eq)]
pub enum Phase {
    /// An own step of IX, counted from 1.
    Step(u32),
    Refill1,
    Refill2,
}

#[derive(Clone, Debug, PartialEq, Eq)]
pub struct Core {
    pub r: [u32; 15],
    pub pc: u32,
    pub flags: u32,
    pub ir1: Option<u32>,
    pub ir2: Option<u32>,
    pub ix: Option<u32>,
    pub phase: Phase,
    /// The next address to be moved.
    pub address: u32,
    /// The word on its way between registers and memory.
    pub data: u32,
    /// The written-back base, until step 2 writes it.
    pub base: u32,
    pub cycles: u64,
    pub retired: u64,
    /// What the start and the instructions retired came to.
    pub sums: Sums,
    pub stop: u32,
    pub length: u32,
}

impl Core {
    /// What a refused start hands back. Its length makes it a bad record in any phase.
    pub fn zeroed() -> Core {
        Core {
            r: [0; 15],
            pc: 0,
            flags: 0,
            ir1: None,
            ir2: None,
            ix: None,
            phase: Phase::Step(1),
            address: 0,
            data: 0,
            base: 0,
            cycles: 0,
            retired: 0,
            sums: Sums::default(),
            stop: 0,
            length: 0,
        }
    }

    /// The answer and a core about to do the start's refill.
    pub fn start(r: [u32; 15], flags: u32, entry: u32, memory: &[u8]) -> (u32, Core) {
        let refusal = start_refusal(memory.len() as u64, entry, flags);
        if refusal != FINE {
            return (refusal, Core::zeroed());
        }
        let core = Core {
            r,
            flags,
            pc: entry,
            phase: Phase::Refill1,
            length: memory.len() as u32,
            ..Core::zeroed()
        };
        (FINE, core)
    }

    /// The answer, the cycles used and the core afterwards.
    pub fn run(mut self, memory: &mut [u8], budget: u64) -> (u32, u64, Core) {
        let refusal = self.run_refusal(memory, budget);
        if refusal != FINE {
            return (refusal, 0, self);
        }
        if self.stop != 0 {
            return (self.stop, 0, self);
        }
        let used = self.do_cycles(memory, budget);
        (self.stop, used, self)
    }

    pub(crate) fn run_refusal(&self, memory: &[u8], budget: u64) -> u32 {
        if memory.len() as u64 != u64::from(self.length) {
            OTHER_MEMORY
        } else if self.is_bad() {
            BAD_RECORD
        } else if budget > MOST_BUDGET {
            BUDGET
        } else if self.cycles + budget > MOST_CYCLES {
            TOO_MANY_CYCLES
        } else {
            FINE
        }
    }

    /// A record that no run takes, phase by phase.
    fn is_bad(&self) -> bool {
        let bad_number = length_is_bad(u64::from(self.length))
            || self.pc % 4 != 0
            || self.pc >= COUNTER_LIMIT
            || self.flags > 15
            || self.cycles > MOST_CYCLES
            || self.retired > self.cycles
            || self.sums.together() > self.cycles.into()
            || !stop_is_known(self.stop);
        let bad_phase = match self.phase {
            Phase::Step(1) => false,
            Phase::Refill1 | Phase::Refill2 => self.stop != 0 || !self.can_be_refilled(),
            Phase::Step(step) => self.stop != 0 || !self.can_be_in(step),
        };
        bad_number || bad_phase
    }

    /// Can a refill be the next one? Without a word it is the start's. What the flags were when the
    /// word was done can't be told any more.
    fn can_be_refilled(&self) -> bool {
        self.ix.is_none_or(can_store_counter)
    }

    /// Can a step other than 1 be the next one, by IX, the flags, the address latch and, where it
    /// multiplies, the present value of Rs?
    fn can_be_in(&self, step: u32) -> bool {
        let Some(word) = self.ix else {
            return false;
        };
        if !passes(word >> 28, self.flags) {
            return false;
        }
        let instruction = decode(word);
        if forbidden(&instruction) {
            return false;
        }
        let (steps, words_left) = match instruction {
            Instruction::Other => return false,
            Instruction::Branch(_) => (1, 0),
            Instruction::Processing(it) => match it.operand {
                Operand::ByRegister { .. } => (2, 0),
                _ => (1, 0),
            },
            Instruction::Single(it) => (if it.load { 3 } else { 2 }, u32::from(step == 2)),
            Instruction::Block(it) => {
                let n = it.list.count_ones();
                (
                    if it.load { n + 2 } else { n + 1 },
                    (n + 2).saturating_sub(step),
                )
            }
            Instruction::Multiply(it) => (1 + cycles_by_rs(self.r[it.rs]), 0),
        };
        (2..=steps).contains(&step)
            && (0..words_left).all(|index| self.is_inside(self.address.wrapping_add(4 * index)))
    }

    fn is_inside(&self, address: u32) -> bool {
        address < self.length
    }

    /// Does one cycle, or sets the stop that is found before step 1, which costs no cycle. The
    /// core is a good one without a stop, and the memory is its own.
    pub fn cycle(mut self, memory: &mut [u8]) -> Core {
        self.do_cycles(memory, 1);
        self
    }

    /// Does so many cycles, fewer where a stop is found and set: how many.
    fn do_cycles<M: Lent + ?Sized>(&mut self, memory: &mut M, budget: u64) -> u64 {
        for done in 0..budget {
            if let Err(stop) = self.advance(memory) {
                self.stop = stop;
                return done;
            }
        }
        budget
    }

    /// Does one cycle, or gives the stop and changes nothing. The core is a good one without a stop.
    pub(crate) fn advance<M: Lent + ?Sized>(&mut self, memory: &mut M) -> Result<(), u32> {
        match self.phase {
            Phase::Refill1 => self.refill_1(memory),
            Phase::Refill2 => self.refill_2(memory),
            Phase::Step(1) => self.step_1(memory)?,
            Phase::Step(step) => self.later_step(step, memory),
        }
        self.cycles += 1;
        Ok(())
    }

    // Parts of a cycle.

    fn carry(&self) -> bool {
        self.flags & C != 0
    }

    /// IR2 becomes IR1, IR1 the word at PC, PC+4.
    fn fetch<M: Lent + ?Sized>(&mut self, memory: &M) {
        self.ir2 = self.ir1;
        self.ir1 = memory::fetch_at_once(memory.bytes(), self.pc);
        self.pc = counter(self.pc.wrapping_add(4));
    }

    /// Goes on to a phase; latches that it needs are filled afterwards.
    fn leave(&mut self, next: Phase) {
        self.phase = next;
        self.address = 0;
        self.data = 0;
        self.base = 0;
    }

    /// The end of the last cycle of an instruction or of a start. Where this cycle fetched, the old
    /// IR1 has become IR2, so that IX takes IR2 in any case.
    fn boundary(&mut self) {
        self.leave(Phase::Step(1));
        self.ix = self.ir2;
    }

    /// The boundary after an instruction, by what its own steps came to.
    fn retire(&mut self, own: Sums) {
        self.retired += 1;
        self.sums.add(own);
        self.boundary();
    }

    /// A stored counter; IX keeps its word through the refills.
    fn store_counter(&mut self, target: u32) {
        self.pc = target;
        self.leave(Phase::Refill1);
    }

    fn refill_1<M: Lent + ?Sized>(&mut self, memory: &M) {
        self.fetch(memory);
        self.leave(Phase::Refill2);
    }

    /// The start's refills have IX blank.
    fn refill_2<M: Lent + ?Sized>(&mut self, memory: &M) {
        self.fetch(memory);
        self.sums.add(REFILLS);
        if let Some(word) = self.ix {
            self.retire(before_refills(word));
        } else {
            self.boundary();
        }
    }

    /// A register, R15 being the flags with `r15`.
    fn read_with_flags(&self, name: usize, r15: u32) -> u32 {
        if name == 15 {
            r15_word(self.flags, r15)
        } else {
            self.r[name]
        }
    }

    // Step 1, and the stop before it. PC is A+8 until the fetch.

    fn step_1<M: Lent + ?Sized>(&mut self, memory: &M) -> Result<(), u32> {
        let word = self.ix.ok_or(NO_WORD)?;
        if !passes(word >> 28, self.flags) {
            self.fetch(memory);
            self.retire(alone(0));
            return Ok(());
        }
        let instruction = decode_inline(word);
        if forbidden(&instruction) {
            return Err(FORBIDDEN);
        }
        match instruction {
            Instruction::Processing(it) => self.process(&it, memory),
            Instruction::Single(it) => self.begin_single(&it, memory)?,
            Instruction::Block(it) => self.begin_block(&it, memory)?,
            Instruction::Branch(it) => self.branch(&it, memory),
            Instruction::Multiply(_) | Instruction::Other => self.begin_other(word, memory)?,
        }
        Ok(())
    }

    /// A shift by register is all done in step 2.
    fn process<M: Lent + ?Sized>(&mut self, it: &Processing, memory: &M) {
        let r15 = self.pc;
        self.fetch(memory);
        let operand = match it.operand {
            Operand::ByRegister { .. } => return self.leave(Phase::Step(2)),
            Operand::ByAmount { rm, shift, amount } => {
                shift_by_amount(shift, amount, self.read_with_flags(rm, r15), self.carry())
            }
            Operand::Constant { rotation, value } => constant(rotation, value, self.carry()),
        };
        self.operate(it, operand, r15, alone(0));
    }

    /// The only or the second step of a processing word: `r15` is what Rn reads as 15. It has two
    /// callers, hence the attribute.
    #[inline(always)]
    fn operate(&mut self, it: &Processing, operand: Shifted, r15: u32, own: Sums) {
        let rn = if it.rn == 15 { r15 } else { self.r[it.rn] };
        let computed = compute(it.operation, rn, operand, self.flags);
        if it.sets && it.rd == 15 {
            self.flags = computed.result >> 28;
        } else if it.sets {
            self.flags = computed.flags;
        }
        if it.only_compares() {
            self.retire(own);
        } else {
            self.write_last(it.rd, computed.result, own);
        }
    }

    /// The last own step writes a register, or the counter, after which refill 2 retires.
    fn write_last(&mut self, name: usize, value: u32, own: Sums) {
        if name == 15 {
            self.store_counter(counter_of(value));
        } else {
            self.r[name] = value;
            self.retire(own);
        }
    }

    fn branch<M: Lent + ?Sized>(&mut self, it: &Branch, memory: &M) {
        let r15 = self.pc;
        self.fetch(memory);
        if it.link {
            self.r[14] = r15_word(self.flags, r15.wrapping_sub(4));
        }
        self.store_counter(counter(r15.wrapping_add(it.distance)));
    }

    /// A word that is no other class's: a multiply does nothing before its last step, which is the
    /// second or a later one.
    fn begin_other<M: Lent + ?Sized>(&mut self, word: u32, memory: &M) -> Result<(), u32> {
        let it = decode_multiply(word).ok_or(OTHER)?;
        if it.is_forbidden() {
            return Err(FORBIDDEN);
        }
        self.fetch(memory);
        self.leave(Phase::Step(2));
        Ok(())
    }

    fn begin_single<M: Lent + ?Sized>(&mut self, it: &Single, memory: &M) -> Result<(), u32> {
        let (address, changed) = self.single_addresses(it);
        self.test_words(address & !3, 1, it.load)?;
        self.fetch(memory);
        self.leave(Phase::Step(2));
        self.address = address;
        if !it.load {
            self.data = self.read_with_flags(it.rd, self.pc);
        }
        if it.writes_base() {
            self.base = changed;
        }
        Ok(())
    }

    fn begin_block<M: Lent + ?Sized>(&mut self, it: &Block, memory: &M) -> Result<(), u32> {
        let (lowest, changed) = self.block_addresses(it);
        self.test_words(lowest, it.list.count_ones(), it.load)?;
        self.fetch(memory);
        self.leave(Phase::Step(2));
        self.address = lowest;
        if !it.load {
            self.data = self.read_with_flags(nth_name(it.list, 0), self.pc);
        }
        if it.w {
            self.base = changed;
        }
        Ok(())
    }

    /// The stops of `words` words, at least one, from a multiple of 4 on. All are inside memory
    /// where the first and the last are: they are too few to go round.
    fn test_words(&self, first: u32, words: u32, load: bool) -> Result<(), u32> {
        let last = first.wrapping_add(4 * (words - 1));
        if !self.is_inside(first) || !self.is_inside(last) {
            return Err(OUTSIDE);
        }
        let moved = first..=last;
        let a_4 = counter(self.pc.wrapping_sub(4));
        if !load && (moved.contains(&a_4) || moved.contains(&self.pc)) {
            return Err(FETCHED);
        }
        Ok(())
    }

    /// Before step 1: a single's whole address and its changed base.
    #[inline(always)]
    fn single_addresses(&self, it: &Single) -> (u32, u32) {
        let base = if it.rn == 15 { self.pc } else { self.r[it.rn] };
        let offset = match it.offset {
            Offset::Number(number) => number,
            Offset::Shifted { rm, shift, amount } => {
                shift_by_amount(shift, amount, self.r[rm], self.carry()).value
            }
        };
        let offset = if it.up { offset } else { offset.wrapping_neg() };
        let changed = base.wrapping_add(offset);
        (if it.before { changed } else { base }, changed)
    }

    /// Before step 1: a block's lowest address and its changed base.
    fn block_addresses(&self, it: &Block) -> (u32, u32) {
        let base = self.r[it.rn];
        let size = 4 * it.list.count_ones();
        let (lowest, changed) = if it.up {
            (base, base.wrapping_add(size))
        } else {
            (base.wrapping_sub(size), base.wrapping_sub(size))
        };
        // One word higher where the base's own word is left out below or taken in above.
        let lowest = if it.up == it.before {
            lowest.wrapping_add(4)
        } else {
            lowest
        };
        (lowest & !3, changed)
    }

    // Steps 2 and later: PC is A+12.

    fn later_step<M: Lent + ?Sized>(&mut self, step: u32, memory: &mut M) {
        let word = self.ix.expect("IX holds a word in its own steps");
        if let Some(it) = decode_multiply(word) {
            return self.multiply_step(&it, step);
        }
        match decode_inline(word) {
            Instruction::Processing(it) => self.second_step(&it),
            Instruction::Single(it) => self.single_step(&it, step, memory),
            Instruction::Block(it) if it.load => self.block_load_step(&it, step, memory),
            Instruction::Block(it) => self.block_store_step(&it, step, memory),
            _ => unreachable!("one step at most"),
        }
    }

    #[inline(always)]
    fn second_step(&mut self, it: &Processing) {
        let Operand::ByRegister { rm, shift, rs } = it.operand else {
            unreachable!("only a shift by register has a second step");
        };
        let value = self.read_with_flags(rm, self.pc);
        let operand = shift_by_register(shift, self.r[rs], value, self.carry());
        self.operate(it, operand, self.pc, alone(1));
    }

    fn single_step<M: Lent + ?Sized>(&mut self, it: &Single, step: u32, memory: &mut M) {
        if step == 3 {
            return self.write_last(it.rd, self.data, loading(1));
        }
        if it.writes_base() {
            self.r[it.rn] = self.base;
        }
        if it.load {
            let value = memory::load(memory.bytes(), self.address, it.byte);
            self.leave(Phase::Step(3));
            self.data = value;
        } else {
            memory.store(self.address, self.data, it.byte);
            self.retire(storing(1));
        }
    }

    fn block_load_step<M: Lent + ?Sized>(&mut self, it: &Block, step: u32, memory: &M) {
        let n = it.list.count_ones();
        if step == n + 2 {
            return self.write_last(nth_name(it.list, n - 1), self.data, loading(n));
        }
        if step > 2 {
            self.r[nth_name(it.list, step - 3)] = self.data;
        } else if it.w {
            self.r[it.rn] = self.base;
        }
        let address = self.address;
        self.leave(Phase::Step(step + 1));
        self.data = memory::word(memory.bytes(), address);
        if step < n + 1 {
            self.address = address.wrapping_add(4);
        }
    }

    fn block_store_step<M: Lent + ?Sized>(&mut self, it: &Block, step: u32, memory: &mut M) {
        let n = it.list.count_ones();
        let address = self.address;
        memory.store(address, self.data, false);
        if step == 2 && it.w {
            self.r[it.rn] = self.base;
        }
        if step == n + 1 {
            return self.retire(storing(n));
        }
        self.leave(Phase::Step(step + 1));
        self.address = address.wrapping_add(4);
        self.data = self.read_with_flags(nth_name(it.list, step - 1), self.pc);
    }

    /// Rs stays as it is until the last step, so that it tells in each which one that is.
    #[inline(always)]
    fn multiply_step(&mut self, it: &Multiply, step: u32) {
        let rs = self.r[it.rs];
        let m = cycles_by_rs(rs);
        if step <= m {
            return self.leave(Phase::Step(step + 1));
        }
        let more = if it.accumulate { self.r[it.rn] } else { 0 };
        let computed = product(self.r[it.rm], rs, more, self.flags);
        if it.sets {
            self.flags = computed.flags;
        }
        self.r[it.rd] = computed.result;
        self.retire(alone(m));
    }
}

/// The register that is named after `earlier` others in a list.
fn nth_name(list: u32, earlier: u32) -> usize {
    let left = (0..earlier).fold(list, |left, _| left & (left - 1));
    left.trailing_zeros() as usize
}

// The record as the array of words that slot_core.h lays out, and back.

pub const WORDS: usize = 39;

pub fn core_array(core: &Core) -> [u32; WORDS] {
    let mut array = [0; WORDS];
    array[..15].copy_from_slice(&core.r);
    array[15] = core.pc;
    array[16] = core.flags;
    for (place, held) in [(17, core.ir1), (19, core.ir2), (21, core.ix)] {
        array[place] = held.unwrap_or(0);
        array[place + 1] = u32::from(held.is_some());
    }
    array[23] = match core.phase {
        Phase::Step(1) => 0,
        Phase::Refill1 => 1,
        Phase::Refill2 => 2,
        Phase::Step(step) => step.wrapping_add(1),
    };
    array[24] = core.address;
    array[25] = core.data;
    array[26] = core.base;
    let Sums { n, s, i } = core.sums;
    let counts = [(27, core.cycles), (29, core.retired)];
    for (place, long) in counts.into_iter().chain([(33, n), (35, s), (37, i)]) {
        array[place] = long as u32;
        array[place + 1] = (long >> 32) as u32;
    }
    array[31] = core.stop;
    array[32] = core.length;
    array
}

/// The core that an array stands for, if any: a word is marked 1, or is 0 and marked 0.
pub fn core_of(array: &[u32; WORDS]) -> Option<Core> {
    let held = |place: usize| match (array[place], array[place + 1]) {
        (word, 1) => Some(Some(word)),
        (0, 0) => Some(None),
        _ => None,
    };
    let long = |place: usize| u64::from(array[place]) | u64::from(array[place + 1]) << 32;
    Some(Core {
        r: array[..15].try_into().expect("fifteen registers"),
        pc: array[15],
        flags: array[16],
        ir1: held(17)?,
        ir2: held(19)?,
        ix: held(21)?,
        phase: match array[23] {
            0 => Phase::Step(1),
            1 => Phase::Refill1,
            2 => Phase::Refill2,
            number => Phase::Step(number - 1),
        },
        address: array[24],
        data: array[25],
        base: array[26],
        cycles: long(27),
        retired: long(29),
        sums: Sums {
            n: long(33),
            s: long(35),
            i: long(37),
        },
        stop: array[31],
        length: array[32],
    })
}
