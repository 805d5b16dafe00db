//! Both machines on one program.

#![allow(dead_code)]

pub mod records;
pub mod slow;
pub mod slow_hex;
pub mod table;

use interpreter::pipeline::{Core, Phase};
use interpreter::plain::Plain;
use interpreter::sums::Sums;

/// A memory of `length` bytes with words from 0 on.
pub fn memory(length: usize, words: &[u32]) -> Vec<u8> {
    let mut memory: Vec<u8> = words.iter().flat_map(|word| word.to_le_bytes()).collect();
    assert!(memory.len() <= length);
    memory.resize(length, 0);
    memory
}

/// What one instruction at `entry` did, the same in both machines.
#[derive(Debug)]
pub struct After {
    pub stop: u32,
    pub r: [u32; 15],
    pub flags: u32,
    pub a: u32,
    pub memory: Vec<u8>,
    pub cycles: u64,
    pub sums: Sums,
}

/// One instruction at `entry` on both machines, which agree.
pub fn one(mut memory: Vec<u8>, entry: u32, word: u32, r: [u32; 15], flags: u32) -> After {
    memory[entry as usize..entry as usize + 4].copy_from_slice(&word.to_le_bytes());
    let mut other = memory.clone();

    let (answer, mut plain) = Plain::start(r, flags, entry, &memory);
    assert_eq!(answer, 0);
    let (stop, done) = plain.run(&mut memory, 1);
    assert_eq!(done, u64::from(stop == 0));

    let (answer, core) = Core::start(r, flags, entry, &other);
    assert_eq!(answer, 0);
    let (answer, used, mut core) = core.run(&mut other, 2);
    assert_eq!((answer, used), (0, 2));
    assert_eq!(core.sums, table::START);
    loop {
        let (answer, used, next) = core.run(&mut other, 1);
        core = next;
        assert_eq!(answer, if used == 1 { 0 } else { stop });
        if used == 0 || core.phase == Phase::Step(1) {
            break;
        }
        assert_eq!(core.sums, table::START);
    }
    assert_eq!(core.stop, stop);
    assert_eq!(core.r, plain.r);
    assert_eq!(core.flags, plain.flags);
    assert_eq!(core.pc.wrapping_sub(8) & 0x03FF_FFFF, plain.a);
    assert_eq!(core.retired, u64::from(stop == 0));
    assert_eq!(other, memory);
    After {
        stop,
        r: plain.r,
        flags: plain.flags,
        a: plain.a,
        memory,
        cycles: core.cycles - 2,
        sums: Sums {
            n: core.sums.n - 1,
            s: core.sums.s - 1,
            i: core.sums.i,
        },
    }
}

/// Registers that are 0 but for some.
pub fn registers(values: &[(usize, u32)]) -> [u32; 15] {
    let mut r = [0; 15];
    for &(name, value) in values {
        r[name] = value;
    }
    r
}
