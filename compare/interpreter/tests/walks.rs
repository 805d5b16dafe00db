//! The walk over a block's list: by numbers worked out by hand, and on random blocks against the
//! machines' stops and a slow statement of how many registers it looks at. Numbers in hexadecimal
//! are addresses.

mod common;

use common::{memory, one, registers};
use interpreter::arm::{decode, Block, Instruction};
use interpreter::assembler::*;
use interpreter::memory::set_word;
use interpreter::plain::Plain;
use interpreter::random::Random;
use interpreter::walk::{due, walk, Walk};
use std::collections::BTreeMap;

const INCREMENT_AFTER: u32 = UP;
const INCREMENT_BEFORE: u32 = UP | BEFORE;
const DECREMENT_AFTER: u32 = 0;
const DECREMENT_BEFORE: u32 = BEFORE;
const MODES: [u32; 4] = [
    INCREMENT_AFTER,
    INCREMENT_BEFORE,
    DECREMENT_AFTER,
    DECREMENT_BEFORE,
];

fn block_of(word: u32) -> Block {
    match decode(word) {
        Instruction::Block(block) => block,
        other => panic!("{word:08X} is {other:?}"),
    }
}

/// The stop, and how many were looked at, of the registers `names` by a base of R13 at A in a memory
/// of `length` bytes.
fn walked(bits: u32, names: &[u32], base: u32, a: u32, length: u32) -> (u32, u32) {
    let it = block_of(block(bits, 13, list(names)));
    let Walk { stop, looked } = walk(&it, &registers(&[(13, base)]), a, length);
    (stop, looked)
}

/// R1, R4 and R9, 12 bytes, by a base of 30. Up from the base are 30, 34 and 38; with P=1 each is 4
/// on. Down, the lowest is 30-C+4 = 28, and with P=1 30-C = 24.
#[test]
fn the_addresses_of_each_mode() {
    let addresses = [
        [0x30, 0x34, 0x38],
        [0x34, 0x38, 0x3C],
        [0x28, 0x2C, 0x30],
        [0x24, 0x28, 0x2C],
    ];
    let names = [1, 4, 9];
    for (mode, [low, middle, high]) in MODES.into_iter().zip(addresses) {
        for w in [0, W] {
            let store = |a, length| walked(STORE | mode | w, &names, 0x30, a, length);
            let load = |a, length| walked(LOAD | mode | w, &names, 0x30, a, length);
            // A memory that ends at one of them has 24 there; the next word is inside a longer one.
            for (looked, address) in [(1, low), (2, middle), (3, high)] {
                assert_eq!(store(0, address), (24, looked));
                assert_eq!(load(0, address), (24, looked));
            }
            assert_eq!(store(0, high + 4), (0, 3));
            assert_eq!(load(0, high + 4), (0, 3));
            // With A+4 or A+8 at one of them, a store has 25 and looks on; 4 further it has none.
            for address in [low, middle, high] {
                assert_eq!(store(address - 4, 64), (25, 3));
                assert_eq!(store(address - 8, 64), (25, 3));
                assert_eq!(load(address - 4, 64), (0, 3));
                assert_eq!(load(address - 8, 64), (0, 3));
            }
            assert_eq!(store(low - 12, 64), (0, 3));
            assert_eq!(store(high, 64), (0, 3));
        }
    }
}

/// Five registers in 64 bytes, up to 3C: from 40, 3C, 38, 34 and 30 on, the one that goes to 40 is
/// the first to the fifth; from 2C on the last goes to 3C.
#[test]
fn the_first_that_meets_24() {
    let names = [0, 3, 7, 9, 15];
    for bits in [STORE | UP, LOAD | UP] {
        for (looked, base) in (1..).zip([0x40, 0x3C, 0x38, 0x34, 0x30]) {
            assert_eq!(walked(bits, &names, base, 0, 64), (24, looked));
        }
        assert_eq!(walked(bits, &names, 0x2C, 0, 64), (0, 5));
    }
}

/// Sixteen registers are 64 bytes: from 4k on, in 64 bytes, 40 is the address of the one with 16-k
/// below it.
#[test]
fn each_of_sixteen() {
    let names: Vec<u32> = (0..16).collect();
    for k in 1..=16 {
        assert_eq!(walked(LOAD | UP, &names, 4 * k, 0, 64), (24, 17 - k));
    }
    assert_eq!(walked(LOAD | UP, &names, 0, 0, 64), (0, 16));
    // R7 left out: one word less, which from 4 on ends at 3C.
    let but_7: Vec<u32> = (0..16).filter(|&name| name != 7).collect();
    for k in 2..=16 {
        assert_eq!(walked(LOAD | UP, &but_7, 4 * k, 0, 64), (24, 17 - k));
    }
    assert_eq!(walked(LOAD | UP, &but_7, 4, 0, 64), (0, 15));
}

/// Two registers, the first and the last of the list's sixteen bits: the number counts registers.
#[test]
fn registers_and_not_bits() {
    // To 3C and 40, and to 38 and 3C. At 30, A+4 is 34 and A+8 38.
    assert_eq!(walked(STORE | UP, &[0, 15], 0x3C, 0x30, 64), (24, 2));
    assert_eq!(walked(LOAD | UP, &[14, 15], 0x40, 0x30, 64), (24, 1));
    assert_eq!(walked(STORE | UP, &[0, 15], 0x38, 0x30, 64), (25, 2));
    assert_eq!(walked(LOAD | UP, &[0, 15], 0x38, 0x30, 64), (0, 2));
}

/// The paper's marked value: at 20, stores to 24 and 28 stop, and those to 20 and 2C don't.
#[test]
fn stores_about_20() {
    for name in [0, 6, 14, 15] {
        for (to, stop) in [(0x20, 0), (0x24, 25), (0x28, 25), (0x2C, 0)] {
            assert_eq!(walked(STORE | UP, &[name], to, 0x20, 64), (stop, 1));
            assert_eq!(walked(LOAD | UP, &[name], to, 0x20, 64), (0, 1));
        }
    }
    // Four registers: from 18 and 1C on, 24 and 28 are their last; from 14 on, 20 is, and from 2C on
    // the first is past both.
    let four = |base| walked(STORE | UP, &[2, 3, 8, 14], base, 0x20, 64);
    for base in [0x18, 0x1C, 0x20, 0x24, 0x28] {
        assert_eq!(four(base), (25, 4));
    }
    assert_eq!(four(0x14), (0, 4));
    assert_eq!(four(0x2C), (0, 4));
}

/// 25 at a lower register than 24: the walk goes on from 25 to 24.
#[test]
fn both_with_25_below() {
    let ten: Vec<u32> = (0..10).collect();
    // From 24 on at 20: A+4 is the first, and after seven up to 3C the eighth is outside.
    assert_eq!(walked(STORE | UP, &ten, 0x24, 0x20, 64), (24, 8));
    // From 38 on at 34: A+4, A+8 and 40.
    assert_eq!(walked(STORE | UP, &[0, 1, 2], 0x38, 0x34, 64), (24, 3));
    // The same with a word less ends at A+8, 3C.
    assert_eq!(walked(STORE | UP, &[0, 1], 0x38, 0x34, 64), (25, 2));
}

/// 24 at a lower register than 25: the addresses begin below 2^32 and go on from 0, where A is. What
/// would meet 25 isn't looked at.
#[test]
fn both_with_24_below() {
    // Three down from 4, P=0: 4-C+4 = -4, then 0 and 4, which is A+4 at 0.
    let three = |bits, base| walked(STORE | bits, &[0, 7, 15], base, 0, 64);
    assert_eq!(three(DECREMENT_AFTER, 4), (24, 1));
    // P=1, from 8: 8-C = -4 likewise. From C: 0, 4 and 8.
    assert_eq!(three(DECREMENT_BEFORE, 8), (24, 1));
    assert_eq!(three(DECREMENT_BEFORE, 0xC), (25, 3));
    // Up from -4: -4, 0 and 4. Up from -8 with P=1: the same.
    assert_eq!(three(INCREMENT_AFTER, 0xFFFF_FFFC), (24, 1));
    assert_eq!(three(INCREMENT_BEFORE, 0xFFFF_FFF8), (24, 1));
    // Up from -4 with P=1 the lowest is 0: 0, 4 and 8 again, and nothing is outside.
    assert_eq!(three(INCREMENT_BEFORE, 0xFFFF_FFFC), (25, 3));
    // Sixteen up from -40 end at -4, and all are outside.
    let all: Vec<u32> = (0..16).collect();
    assert_eq!(walked(STORE | UP, &all, 0xFFFF_FFC0, 0, 64), (24, 1));
}

/// 24 and 25 of the same register: A+4 or A+8 is the length.
#[test]
fn both_at_once() {
    assert_eq!(walked(STORE | UP, &[5], 0x40, 0x3C, 64), (24, 1));
    assert_eq!(walked(STORE | UP, &[5], 0x40, 0x38, 64), (24, 1));
    // From 3C on at 3C: A itself, then A+4. At 38: A+4, then A+8.
    assert_eq!(walked(STORE | UP, &[5, 6], 0x3C, 0x3C, 64), (24, 2));
    assert_eq!(walked(STORE | UP, &[5, 6], 0x3C, 0x38, 64), (24, 2));
    assert_eq!(walked(STORE | UP, &[5], 0x3C, 0x38, 64), (25, 1));
}

/// Addresses far from the memory, that some of their bits would put into it or at A+4.
#[test]
fn far_away() {
    for base in [
        0x8000_0000,
        0x8000_0024,
        0x0400_0000,
        0x0400_0024,
        0x0001_0024,
        0x7FFF_FFFC,
        0x03FF_FFFC,
    ] {
        for bits in [STORE | UP, LOAD | UP] {
            assert_eq!(walked(bits, &[0, 7, 15], base, 0x20, 64), (24, 1));
            assert_eq!(walked(bits, &[0, 7, 15], base, 0x20, 65_536), (24, 1));
        }
    }
}

/// The low two bits are dropped from the lowest address, not from the base.
#[test]
fn low_bits_of_the_base() {
    let store = |bits, names: &[u32], base| walked(STORE | bits, names, base, 0x20, 64);
    // 23, 27, 2B and 2F are in the words 20, 24, 28 and 2C.
    assert_eq!(store(INCREMENT_AFTER, &[1], 0x23), (0, 1));
    assert_eq!(store(INCREMENT_AFTER, &[1], 0x27), (25, 1));
    assert_eq!(store(INCREMENT_AFTER, &[1], 0x2B), (25, 1));
    assert_eq!(store(INCREMENT_AFTER, &[1], 0x2F), (0, 1));
    // 3F+4 is in the word 40, and 3F itself in 3C.
    assert_eq!(store(INCREMENT_BEFORE, &[1, 2], 0x3F), (24, 1));
    assert_eq!(store(INCREMENT_AFTER, &[1, 2], 0x3F), (24, 2));
    // 25-8+4 = 21, so 20 and 24. 22-8 = 1A, so 18 and 1C. 26-8+4 = 22, so 20 and 24.
    assert_eq!(store(DECREMENT_AFTER, &[1, 2], 0x25), (25, 2));
    assert_eq!(store(DECREMENT_BEFORE, &[1, 2], 0x22), (0, 2));
    assert_eq!(store(DECREMENT_AFTER, &[1, 2], 0x26), (25, 2));
    // 3-4+4 = 3, in the word 0; 3-4 is -1, in the word below 2^32; -1+4 = 3 again.
    assert_eq!(store(DECREMENT_AFTER, &[1], 3), (0, 1));
    assert_eq!(store(DECREMENT_BEFORE, &[1], 3), (24, 1));
    assert_eq!(store(INCREMENT_BEFORE, &[1], 0xFFFF_FFFF), (0, 1));
}

/// In 16 bytes there are the words 0, 4, 8 and C; in 65536 the last is FFFC.
#[test]
fn shortest_and_longest_memory() {
    let four = [0, 2, 4, 6];
    assert_eq!(walked(STORE | UP, &four, 0, 0xC, 16), (0, 4));
    assert_eq!(walked(STORE | UP, &four, 0, 8, 16), (25, 4));
    assert_eq!(walked(STORE | UP, &four, 4, 0xC, 16), (24, 4));
    assert_eq!(walked(LOAD | UP, &four, 0, 0, 16), (0, 4));
    assert_eq!(walked(LOAD | UP, &four, 0xFFF0, 0, 65_536), (0, 4));
    assert_eq!(walked(LOAD | UP, &four, 0xFFF4, 0, 65_536), (24, 4));
    assert_eq!(walked(STORE | UP, &four, 0xFFF0, 0xFFF8, 65_536), (25, 4));
    assert_eq!(walked(STORE | UP, &four, 0xFFF0, 0xFFFC, 65_536), (0, 4));
}

#[test]
fn a_list_without_registers() {
    for base in [0, 0x24, 0x40, 0xFFFF_FFFC] {
        for bits in [STORE | UP, LOAD | UP, STORE, LOAD] {
            assert_eq!(walked(bits, &[], base, 0x20, 64), (0, 0));
        }
    }
}

/// A base in the list is taken as it is before the block, and no other register counts.
#[test]
fn the_base_in_the_list() {
    // R1, R6 and R12 to 38, 3C and 40, by each of them.
    let word = |base| block_of(block(STORE | UP | W, base, list(&[1, 6, 12])));
    for base in [1, 6, 12] {
        let mut r = [0x0400_0000; 15];
        r[base as usize] = 0x38;
        let outside = walk(&word(base), &r, 0x20, 64);
        assert_eq!((outside.stop, outside.looked), (24, 3));
        let inside = walk(&word(base), &r, 0x20, 68);
        assert_eq!((inside.stop, inside.looked), (0, 3));
    }
}

/// A machine at 20 in 64 bytes with R13 at 38, and its memory with this word at 20.
fn at_20(word: u32) -> (Plain, Vec<u8>) {
    let mut bytes = memory(64, &[]);
    set_word(&mut bytes, 0x20, word);
    let (answer, plain) = Plain::start(registers(&[(13, 0x38)]), 0, 0x20, &bytes);
    assert_eq!(answer, 0);
    (plain, bytes)
}

/// R0, R7 and R15 from 38 on: 38, 3C and 40.
fn past_the_end() -> u32 {
    block(LOAD | UP, 13, list(&[0, 7, 15]))
}

#[test]
fn the_walk_due() {
    let third = Walk {
        stop: 24,
        looked: 3,
    };
    let (plain, bytes) = at_20(past_the_end());
    assert_eq!(due(&plain, &bytes), third);
    // Whatever the condition, and whatever stop is held.
    for condition in 0..16 {
        let (plain, bytes) = at_20(on(condition, past_the_end()));
        assert_eq!(due(&plain, &bytes), third);
    }
    for stop in 21..=25 {
        let held = Plain {
            stop,
            ..plain.clone()
        };
        assert_eq!(due(&held, &bytes), third);
    }
}

#[test]
fn no_walk_is_due() {
    let none = Walk::default();
    let rules = [
        block(LOAD | UP, 15, 7),
        block(LOAD | UP | S_BIT, 13, 7),
        block(LOAD | UP, 13, 0),
    ];
    let others = [mov(0, number(1)), ldr(0, 13, 8), branch(0), mul(0, 1, 2)];
    for word in rules.into_iter().chain(others).chain([SWI, SWP, 0]) {
        let (plain, bytes) = at_20(word);
        assert_eq!(due(&plain, &bytes), none, "{word:08X}");
    }
    let (plain, bytes) = at_20(past_the_end());
    for a in [0, 0x1C, 0x24, 0x40, 0x44, 0x0400_0020, 0x8000_0020] {
        let elsewhere = Plain { a, ..plain.clone() };
        assert_eq!(due(&elsewhere, &bytes), none, "{a:X}");
    }
    // Another memory than the record's.
    assert_eq!(due(&plain, &bytes[..60]), none);
    assert_eq!(due(&plain, &memory(68, &[past_the_end(); 17])), none);
    assert_eq!(due(&Plain::default(), &[]), none);
    assert_eq!(due(&Plain::default(), &bytes), none);
    // A record whose length is bad, at its last bytes, which are no word.
    let odd = Plain {
        a: 0x24,
        length: 0x27,
        ..plain
    };
    assert_eq!(due(&odd, &[0xE8; 0x27]), none);
}

/// What each register of the list meets by itself, lowest first: 24, else 25, else 0.
///
/// The one with `below` named registers below it goes 4 times so many past the base, or 4 times as
/// many below it as it and those above it are; P=1 up and P=0 down put it 4 further up.
fn each(it: &Block, base: u32, a: u32, length: u32) -> Vec<u32> {
    let n = i64::from(it.list.count_ones());
    let meets = |below: i64| {
        let words = if it.up { below } else { below - n };
        let more = i64::from(it.up == it.before);
        let exact = i64::from(base) + 4 * (words + more);
        let address = exact.rem_euclid(1 << 32) / 4 * 4;
        let next = [4, 8].map(|ahead| i64::from(a) + ahead);
        if address >= i64::from(length) {
            24
        } else if !it.load && next.contains(&address) {
            25
        } else {
            0
        }
    };
    (0..n).map(meets).collect()
}

/// The request word by word: the stop, then the count up to and with the first 24, else all.
fn slow(it: &Block, base: u32, a: u32, length: u32) -> Walk {
    let each = each(it, base, a, length);
    let first = each.iter().position(|&stop| stop == 24);
    Walk {
        stop: match first {
            Some(_) => 24,
            None if each.contains(&25) => 25,
            None => 0,
        },
        looked: first.map_or(each.len(), |index| index + 1) as u32,
    }
}

/// Any list, and often one of few registers, of all or of all but one.
fn some_list(random: &mut Random) -> u32 {
    let one = 1 << random.below(16);
    match random.below(6) {
        0 => one,
        1 => one | 1 << random.below(16),
        2 => 0xFFFF,
        3 => 0xFFFF & !one,
        _ => 1 + random.below(0xFFFF),
    }
}

/// A word's address, often one of the first or of the last.
fn some_place(random: &mut Random, length: u32) -> u32 {
    let words = length / 4;
    let from_an_end = random.below(4);
    let index = match random.below(3) {
        0 => from_an_end,
        1 => words - 1 - from_an_end,
        _ => random.below(words),
    };
    4 * index
}

/// A block by any register but R15, which is close, or whose list is, to an end of the memory, to A,
/// to 2^32 or to a lower power; the other registers hold anything.
fn some_block(random: &mut Random, a: u32, length: u32) -> (u32, [u32; 15]) {
    let bits = random.pick(&MODES) | random.pick(&[0, W]) | random.pick(&[STORE, STORE, LOAD]);
    let base = random.below(15);
    let mut r = [0; 15];
    for value in &mut r {
        *value = random.word();
    }
    let list = some_list(random);
    let about = random.pick(&[0, length, length, a, a, a, 1 << 31, 1 << 26, 1 << 16]);
    let reach = random.pick(&[20, 40, 160]);
    let further = random.pick(&[0, 4 * list.count_ones()]);
    r[base as usize] = about
        .wrapping_add(further + random.below(reach))
        .wrapping_sub(reach / 2);
    (block(bits, base, list), r)
}

/// How a walk ended on a list of `n` registers.
fn ending(it: Walk, n: u32) -> (u32, &'static str) {
    let place = match it.looked {
        _ if n == 1 => "alone",
        1 => "first",
        looked if looked == n => "last",
        _ => "between",
    };
    (it.stop, place)
}

#[test]
fn random_blocks() {
    let mut random = Random::new(5);
    let mut endings = BTreeMap::new();
    for length in [16, 20, 64, 128, 256, 4_096, 65_532, 65_536] {
        let mut bytes = memory(length as usize, &[]);
        for _ in 0..50_000 {
            let a = some_place(&mut random, length);
            let (word, r) = some_block(&mut random, a, length);
            let it = block_of(word);
            let found = walk(&it, &r, a, length);
            let said = || format!("{word:08X} at {a:X} of {length}, {r:X?}");
            assert_eq!(found, slow(&it, r[it.rn], a, length), "{}", said());
            set_word(&mut bytes, a, word);
            let mut plain = Plain {
                r,
                a,
                length,
                ..Plain::default()
            };
            assert_eq!(due(&plain, &bytes), found, "{}", said());
            assert_eq!(plain.step(&mut bytes), found.stop, "{}", said());
            *endings
                .entry(ending(found, it.list.count_ones()))
                .or_insert(0) += 1;
        }
    }
    println!("{endings:?}");
    for place in ["alone", "first", "between", "last"] {
        assert!(endings[&(24, place)] > 2_000, "{place}");
    }
    for place in ["alone", "last"] {
        assert!(endings[&(0, place)] > 2_000 && endings[&(25, place)] > 2_000);
    }
    assert_eq!(endings.len(), 8);
}

/// Each list in each mode, in 64 bytes.
#[test]
fn every_list() {
    let mut random = Random::new(6);
    for list in 1..=0xFFFF {
        for mode in MODES {
            let bits = mode | random.pick(&[0, W]) | random.pick(&[STORE, LOAD]);
            let it = block_of(block(bits, 13, list));
            let base = random.below(160).wrapping_sub(40);
            let a = 4 * random.below(16);
            let found = walk(&it, &registers(&[(13, base)]), a, 64);
            assert_eq!(found, slow(&it, base, a, 64), "{it:?} {base:X} {a:X}");
        }
    }
}

/// Both machines stop by themselves, in their own ways.
#[test]
fn both_machines_stop_alike() {
    let mut random = Random::new(7);
    for _ in 0..20_000 {
        let length = random.pick(&[16, 20, 64, 128]);
        let a = some_place(&mut random, length);
        let (word, r) = some_block(&mut random, a, length);
        let found = walk(&block_of(word), &r, a, length);
        let after = one(memory(length as usize, &[]), a, word, r, 0);
        assert_eq!(after.stop, found.stop, "{word:08X} at {a:X} of {length}");
    }
}
