//! One machine in the product and in the interpreter, held together call by call.

use crate::archive::{self, CoreArray, PlainArray, CORE_CYCLES, CORE_LENGTH, CORE_PHASE};
use crate::difference::{CallDifference, Outcome};
use crate::odd::count;
use crate::{odd_sums, records};
use interpreter::answers::{BAD_RECORD, OTHER_MEMORY};
use interpreter::memory;
use interpreter::pipeline::Core;
use interpreter::plain::Plain;

/// A machine of the interpreter with the product's calls for it.
pub trait Machine: Clone {
    type Array: AsRef<[u32]> + AsMut<[u32]> + Clone + PartialEq;
    const KIND: &'static str;
    const NAMES: &'static [&'static str];
    /// The index of the memory's length.
    const LENGTH: usize;

    fn begin(r: [u32; 15], flags: u32, entry: u32, memory: &[u8]) -> (u32, Self);
    fn advance(self, memory: &mut [u8], budget: u64) -> (u32, u64, Self);
    fn array(&self) -> Self::Array;
    fn of(array: &Self::Array) -> Option<Self>;
    /// On a boundary, whether the sums together are the cycles, as they are from a start on. Where
    /// there are no sums there is nothing to tell.
    fn sums_hold(array: &Self::Array) -> Option<bool>;

    fn product_begin(r: &[u32; 15], flags: u32, entry: u32, memory: &[u8]) -> (u32, Self::Array);
    fn product_advance(array: &mut Self::Array, memory: &mut [u8], budget: u64) -> (u32, u64);
}

impl Machine for Core {
    type Array = CoreArray;
    const KIND: &'static str = "core";
    const NAMES: &'static [&'static str] = &records::CORE_NAMES;
    const LENGTH: usize = CORE_LENGTH;

    fn begin(r: [u32; 15], flags: u32, entry: u32, memory: &[u8]) -> (u32, Core) {
        Core::start(r, flags, entry, memory)
    }

    fn advance(self, memory: &mut [u8], budget: u64) -> (u32, u64, Core) {
        self.run(memory, budget)
    }

    fn array(&self) -> CoreArray {
        records::core_array(self)
    }

    fn of(array: &CoreArray) -> Option<Core> {
        records::core_of(array)
    }

    fn sums_hold(array: &CoreArray) -> Option<bool> {
        let together: u128 = odd_sums::of(array).into_iter().map(u128::from).sum();
        (array[CORE_PHASE] == 0).then(|| together == count(array, CORE_CYCLES).into())
    }

    fn product_begin(r: &[u32; 15], flags: u32, entry: u32, memory: &[u8]) -> (u32, CoreArray) {
        archive::core_start(r, flags, entry, memory)
    }

    fn product_advance(array: &mut CoreArray, memory: &mut [u8], budget: u64) -> (u32, u64) {
        archive::core_run(array, memory, budget)
    }
}

impl Machine for Plain {
    type Array = PlainArray;
    const KIND: &'static str = "plain machine";
    const NAMES: &'static [&'static str] = &records::PLAIN_NAMES;
    const LENGTH: usize = 18;

    fn begin(r: [u32; 15], flags: u32, entry: u32, memory: &[u8]) -> (u32, Plain) {
        Plain::start(r, flags, entry, memory)
    }

    fn advance(mut self, memory: &mut [u8], budget: u64) -> (u32, u64, Plain) {
        let (answer, done) = self.run(memory, budget);
        (answer, done, self)
    }

    fn array(&self) -> PlainArray {
        records::plain_array(self)
    }

    fn of(array: &PlainArray) -> Option<Plain> {
        Some(records::plain_of(array))
    }

    fn sums_hold(_: &PlainArray) -> Option<bool> {
        None
    }

    fn product_begin(r: &[u32; 15], flags: u32, entry: u32, memory: &[u8]) -> (u32, PlainArray) {
        archive::plain_start(r, flags, entry, memory)
    }

    fn product_advance(array: &mut PlainArray, memory: &mut [u8], budget: u64) -> (u32, u64) {
        archive::plain_run(array, memory, budget)
    }
}

/// Bytes after the memory, which a call may be lent wrongly and which must never change otherwise.
pub(crate) const BEYOND: usize = 8;

#[derive(Clone)]
pub struct Pair<M: Machine> {
    pub product: M::Array,
    product_memory: Vec<u8>,
    /// Nothing where the array stands for no record of the interpreter.
    pub expected: Option<M>,
    expected_memory: Vec<u8>,
    /// The memory's length.
    pub length: usize,
    /// From a start, and no field set since.
    untouched: bool,
}

impl<M: Machine> Pair<M> {
    /// Starts both on a memory of this content, and compares what they hand back.
    pub fn start(
        r: [u32; 15],
        flags: u32,
        entry: u32,
        memory: &[u8],
    ) -> Result<(u32, Pair<M>), Box<CallDifference>> {
        let mut buffer = memory.to_vec();
        buffer.resize(memory.len() + BEYOND, 0xEE);
        let (answer, product) = M::product_begin(&r, flags, entry, memory);
        let (expected_answer, expected) = M::begin(r, flags, entry, memory);
        let pair = Pair {
            product,
            product_memory: buffer.clone(),
            expected: Some(expected),
            expected_memory: buffer,
            length: memory.len(),
            untouched: true,
        };
        let wanted = pair.wanted();
        if answer != expected_answer || pair.product != wanted {
            return Err(pair.difference(
                "start".to_string(),
                pair.product.clone(),
                (answer, 0),
                (expected_answer, 0),
                wanted,
            ));
        }
        Ok((answer, pair))
    }

    /// A pair of any array, on a memory of this content.
    pub fn record(array: M::Array, memory: &[u8]) -> Pair<M> {
        let mut buffer = memory.to_vec();
        buffer.resize(memory.len() + BEYOND, 0xEE);
        Pair {
            expected: M::of(&array),
            product: array,
            product_memory: buffer.clone(),
            expected_memory: buffer,
            length: memory.len(),
            untouched: false,
        }
    }

    /// The same with one field changed.
    pub fn set(&mut self, field: usize, value: u32) {
        self.product.as_mut()[field] = value;
        self.expected = M::of(&self.product);
        self.untouched = false;
    }

    /// The same with these fields changed.
    pub fn set_all(&mut self, fields: &[(usize, u32)]) {
        for &(field, value) in fields {
            self.set(field, value);
        }
    }

    /// On a boundary that is reached from a start, whether the product's sums are its cycles.
    pub fn sums_hold(&self) -> Option<bool> {
        M::sums_hold(&self.product).filter(|_| self.untouched)
    }

    /// Makes room for so many bytes and calls them the memory.
    pub fn resize(&mut self, length: usize) {
        for buffer in [&mut self.product_memory, &mut self.expected_memory] {
            buffer.resize(length + BEYOND, 0xEE);
        }
        self.length = length;
    }

    /// What the owner of the memory writes between calls.
    pub fn poke(&mut self, address: usize, byte: u8) {
        self.product_memory[address] = byte;
        self.expected_memory[address] = byte;
    }

    pub fn poke_word(&mut self, address: u32, word: u32) {
        memory::set_word(&mut self.product_memory, address, word);
        memory::set_word(&mut self.expected_memory, address, word);
    }

    /// The most bytes that can be lent.
    pub fn most(&self) -> usize {
        self.product_memory.len()
    }

    pub fn memory(&self) -> &[u8] {
        &self.expected_memory[..self.length]
    }

    /// The first so many bytes of the product's memory, those beyond it too.
    pub fn lent(&self, lent: usize) -> &[u8] {
        &self.product_memory[..lent]
    }

    fn wanted(&self) -> M::Array {
        match &self.expected {
            Some(machine) => machine.array(),
            None => self.product.clone(),
        }
    }

    /// A run of each, lending the first `lent` bytes: the answer and what was used.
    pub fn run(&mut self, lent: usize, budget: u64) -> Result<(u32, u64), Box<CallDifference>> {
        self.call(
            lent,
            |array, memory| M::product_advance(array, memory, budget),
            |machine, memory| machine.advance(memory, budget),
            || format!("run lent {lent} budget {budget}"),
        )
    }

    /// One call of each, whichever it is.
    pub(crate) fn call(
        &mut self,
        lent: usize,
        product: impl FnOnce(&mut M::Array, &mut [u8]) -> (u32, u64),
        expected: impl FnOnce(M, &mut [u8]) -> (u32, u64, M),
        name: impl FnOnce() -> String,
    ) -> Result<(u32, u64), Box<CallDifference>> {
        let before = self.product.clone();
        let (answer, used) = product(&mut self.product, &mut self.product_memory[..lent]);
        let (expected_answer, expected_used, wanted) = match self.expected.take() {
            Some(machine) => {
                let (answer, used, after) = expected(machine, &mut self.expected_memory[..lent]);
                let array = after.array();
                self.expected = Some(after);
                (answer, used, array)
            }
            // The paper's order: 12 before 11.
            None if lent != before.as_ref()[M::LENGTH] as usize => {
                (OTHER_MEMORY, 0, before.clone())
            }
            None => (BAD_RECORD, 0, before.clone()),
        };
        let agrees = answer == expected_answer
            && used == expected_used
            && self.product == wanted
            && self.product_memory == self.expected_memory;
        if agrees && self.sums_hold() != Some(false) {
            return Ok((answer, used));
        }
        Err(self.difference(
            name(),
            before,
            (answer, used),
            (expected_answer, expected_used),
            wanted,
        ))
    }

    fn difference(
        &self,
        call: String,
        before: M::Array,
        product: (u32, u64),
        expected: (u32, u64),
        wanted: M::Array,
    ) -> Box<CallDifference> {
        let byte = (0..self.product_memory.len())
            .find(|&at| self.product_memory[at] != self.expected_memory[at])
            .map(|at| (at, self.product_memory[at], self.expected_memory[at]));
        Box::new(CallDifference {
            kind: M::KIND,
            names: M::NAMES,
            call,
            before: before.as_ref().to_vec(),
            product: Outcome {
                answer: product.0,
                used: product.1,
                record: self.product.as_ref().to_vec(),
            },
            expected: Outcome {
                answer: expected.0,
                used: expected.1,
                record: wanted.as_ref().to_vec(),
            },
            byte,
            sums_hold: self.sums_hold() != Some(false),
        })
    }
}

impl Pair<Core> {
    /// A settle of each, likewise.
    pub fn settle(&mut self, lent: usize) -> Result<(u32, u64), Box<CallDifference>> {
        self.call(lent, archive::core_settle, Core::settle, || {
            format!("settle lent {lent}")
        })
    }
}
