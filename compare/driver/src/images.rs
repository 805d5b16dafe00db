//! The images that are timed. Each loops without end.

use interpreter::arm::{decode, Instruction, Multiply, Shift};
use interpreter::assembler::*;
use interpreter::programs::Program;

/// The bytes of memory of each image.
const LENGTH: usize = 4096;

// Conditions.
const NE: u32 = 1;
const CS: u32 = 2;

/// Where the CRC image keeps its message, how long it is and where its result goes.
pub const MESSAGE: u32 = 0x400;
pub const MESSAGE_BYTES: u32 = 64;
pub const RESULT: u32 = 0x800;

/// Where the filter image keeps its samples, its coefficients and its results, and how many of the
/// last it makes.
pub const SAMPLES: u32 = 0xA00;
pub const COEFFICIENTS: u32 = 0xB00;
pub const FILTERED: u32 = 0xC00;
pub const OUTPUTS: u32 = 32;

/// A low pass of sixteen taps, which come to 2^15 together.
pub const TAPS: [i32; 16] = [
    78, -30, -390, -817, -273, 2259, 6231, 9326, 9326, 6231, 2259, -273, -817, -390, -30, 78,
];

pub const NAMES: [&str; 6] = ["alu", "transfers", "crc", "mix", "fir", "blocks"];

/// One more, whose stores are watched: it hands frames to a link buffer, the last but three words.
pub const SENDER: &str = "frames";
pub const LINK: u32 = 0xFF0;

pub fn image(name: &str) -> Option<Program> {
    match name {
        "alu" => Some(alu()),
        "transfers" => Some(transfers()),
        "crc" => Some(crc()),
        "mix" => Some(mix()),
        "fir" => Some(fir()),
        "blocks" => Some(blocks()),
        SENDER => Some(frames()),
        _ => None,
    }
}

/// Another word that does the same, if this one is a move, a compare or a multiply that doesn't
/// accumulate: the field that it has no use for is changed.
pub fn twin(word: u32) -> Option<u32> {
    match decode(word) {
        Instruction::Processing(it) if [MOV, MVN].contains(&it.operation) => Some(word ^ 1 << 16),
        // A compare with Rd 15 sets other flags.
        Instruction::Processing(it) if it.only_compares() && it.rd < 14 => Some(word ^ 1 << 12),
        // Rn 15 is forbidden even so.
        Instruction::Multiply(Multiply {
            accumulate: false,
            rn: 0..=13,
            ..
        }) => Some(word ^ 1 << 12),
        _ => None,
    }
}

fn program(code: &[u32], r: [u32; 15]) -> Program {
    let mut words = vec![0; LENGTH / 4];
    words[..code.len()].copy_from_slice(code);
    for index in 0..MESSAGE_BYTES / 4 {
        words[(MESSAGE / 4 + index) as usize] = index.wrapping_mul(0x9E37_79B9) ^ 0x0123_4567;
    }
    Program {
        words,
        r,
        flags: 0,
        entry: 0,
    }
}

/// A loop of sums, shifts by amount, compares and branches, one of them seldom taken.
fn alu() -> Program {
    let code = [
        mov(0, rotated(11, 1)), // 0x400 turns
        op(ADD, 1, 1, by_amount(2, Shift::Lsl, 3)),
        op(EOR, 2, 2, by_amount(1, Shift::Ror, 7)),
        ops(ADC, 3, 3, plain(2)),
        op(ORR, 4, 1, by_amount(3, Shift::Lsr, 5)),
        ops(CMP, 0, 4, plain(1)),
        on(CS, op(SUB, 5, 4, plain(1))),
        op(BIC, 6, 5, number(0xF0)),
        ops(SUB, 0, 0, number(1)),
        on(NE, branch_to(36, 4)),
        branch_to(40, 0),
    ];
    let mut r = [0; 15];
    r[1] = 0x1234_5678;
    r[2] = 0x9ABC_DEF1;
    program(&code, r)
}

/// Block and single transfers with shifts by register between them.
fn transfers() -> Program {
    let code = [
        mov(8, rotated(11, 1)), // 0x400
        mov(9, rotated(11, 2)), // 0x800
        mov(10, number(16)),    // turns
        block(LOAD | UP | W, 8, list(&[0, 1, 2, 3])),
        op(ADD, 0, 0, by_register(1, Shift::Lsl, 10)),
        single(STORE | UP, 0, 9, 4),
        ldr(4, 9, 64),
        op(ORR, 1, 1, by_register(4, Shift::Ror, 3)),
        single(LOAD | BEFORE | UP | BYTE, 5, 9, 3),
        op(EOR, 2, 5, by_register(2, Shift::Lsr, 10)),
        single_by(LOAD | BEFORE | UP, 6, 8, by_amount(10, Shift::Lsl, 2)),
        single(STORE | BEFORE | UP | BYTE, 2, 9, 33),
        block(STORE | UP | BEFORE, 9, list(&[0, 1, 2, 4, 6])),
        ops(SUB, 10, 10, number(1)),
        on(NE, branch_to(56, 12)),
        branch_to(60, 0),
    ];
    program(&code, [7; 15])
}

// What functions of compiled code begin, end and are called with.

fn stacked(names: &[u32]) -> u32 {
    block(STORE | BEFORE | W, 13, list(names))
}

fn unstacked(names: &[u32]) -> u32 {
    block(LOAD | UP | W, 13, list(names))
}

fn call(from: u32, to: u32) -> u32 {
    branch_to(from, to) | 1 << 24
}

/// A CRC-32 over the message as a compiler would put it: a function that calls another for each
/// byte, both stacking registers.
fn crc() -> Program {
    let code = [
        // 0: main
        mov(13, rotated(10, 1)), // 0x1000, the stack
        mov(0, rotated(11, 1)),  // 4: the message
        mov(1, number(MESSAGE_BYTES)),
        call(12, 32),
        mov(4, rotated(11, 2)), // 16: the result's place
        str(0, 4, 0),
        mov(0, plain(0)),
        branch_to(28, 4),
        // 32: crc
        stacked(&[4, 5, 6, 14]),
        mov(4, plain(0)),
        mov(5, plain(1)),
        op(MVN, 0, 0, number(0)),
        single(LOAD | UP | BYTE, 1, 4, 1), // 48: next
        call(52, 76),
        ops(SUB, 5, 5, number(1)),
        on(NE, branch_to(60, 48)),
        op(MVN, 0, 0, plain(0)),
        unstacked(&[4, 5, 6, 15]),
        0,
        // 76: byte
        stacked(&[4, 14]),
        op(EOR, 0, 0, plain(1)),
        mov(2, number(8)),
        ldr(3, 15, 16),                       // 88: from 112
        movs(0, by_amount(0, Shift::Lsr, 1)), // 92: bit
        on(CS, op(EOR, 0, 0, plain(3))),
        ops(SUB, 2, 2, number(1)),
        on(NE, branch_to(104, 92)),
        unstacked(&[4, 15]),
        0xEDB8_8320, // 112
    ];
    program(&code, [0; 15])
}

/// Single loads and stores of words and bytes, indexed before and after, by numbers and by
/// registers, with sums and a compare between them.
fn mix() -> Program {
    let code = [
        mov(8, rotated(11, 1)),  // 0x400
        mov(9, rotated(11, 2)),  // 0x800
        mov(11, rotated(11, 3)), // 0xC00
        mov(7, number(4)),
        mov(10, number(16)),        // turns
        single(LOAD | UP, 0, 8, 4), // 20: turn
        op(ADD, 1, 1, by_amount(0, Shift::Ror, 5)),
        single_by(STORE | BEFORE | UP, 1, 9, by_amount(10, Shift::Lsl, 2)),
        single(LOAD | BEFORE | UP | BYTE, 2, 9, 5),
        op(EOR, 3, 3, plain(2)),
        single(STORE | UP | BYTE, 3, 11, 1),
        single_by(LOAD | BEFORE | UP | BYTE, 4, 8, plain(10)),
        ops(CMP, 0, 4, plain(2)),
        on(CS, op(SUB, 5, 4, plain(2))),
        single(STORE | BEFORE | UP | W, 5, 9, 4),
        single_by(LOAD, 6, 9, plain(7)), // takes the base back
        op(ADC, 3, 6, plain(3)),
        ops(SUB, 10, 10, number(1)),
        on(NE, branch_to(72, 20)),
        branch_to(76, 0),
    ];
    program(&code, [0; 15])
}

/// One of the filter's samples, of 16 bits with their sign.
fn sample(index: u32) -> i32 {
    i32::from((index.wrapping_mul(0x9E37_79B9) >> 16) as i16)
}

/// A filter over the samples as a compiler would put it: a function that for each result loads
/// samples and coefficients, sums up their products and stores what the sum comes to.
fn fir() -> Program {
    let address = |address: u32| rotated(12, address >> 8);
    let code = [
        // 0: main
        mov(13, rotated(10, 1)),  // 0x1000, the stack
        mov(0, address(SAMPLES)), // 4: again
        mov(1, address(COEFFICIENTS)),
        mov(2, address(FILTERED)),
        mov(3, number(OUTPUTS)),
        call(20, 28),
        branch_to(24, 4),
        // 28: fir
        stacked(&[4, 5, 6, 7, 8, 14]),
        mov(4, plain(0)), // 32: result
        mov(5, plain(1)),
        mov(6, number(TAPS.len() as u32)),
        mov(7, number(0)),
        single(LOAD | UP, 12, 4, 4), // 48: tap
        single(LOAD | UP, 8, 5, 4),
        mla(7, 12, 8, 7),
        ops(SUB, 6, 6, number(1)),
        on(NE, branch_to(64, 48)),
        mov(7, by_amount(7, Shift::Asr, 15)),
        single(STORE | UP, 7, 2, 4),
        op(ADD, 0, 0, number(4)),
        ops(SUB, 3, 3, number(1)),
        on(NE, branch_to(84, 32)),
        unstacked(&[4, 5, 6, 7, 8, 15]),
    ];
    let mut program = program(&code, [0; 15]);
    let samples = OUTPUTS + TAPS.len() as u32 - 1;
    put(&mut program, SAMPLES, (0..samples).map(sample));
    put(&mut program, COEFFICIENTS, TAPS.into_iter());
    program
}

/// Block transfers of fifteen and of sixteen registers, loads and stores, with a sum and a branch.
fn blocks() -> Program {
    const ALL: u32 = 0xFFFF;
    const BUT_R15: u32 = 0x7FFF;
    let code = [
        mov(13, rotated(11, 1)), // 0x400
        // 4: again
        block(STORE | UP, 13, ALL), // R15 as 16
        block(LOAD | UP, 13, BUT_R15),
        block(LOAD | UP, 13, ALL),          // on to 16
        block(STORE | BEFORE, 13, BUT_R15), // 16
        op(ADD, 0, 1, plain(0)),
        branch_to(24, 4),
    ];
    program(&code, [0x0123_4567; 15])
}

/// Frames of a sync word, fifteen words of data and their sum, and a wait between them.
fn frames() -> Program {
    let code = [
        mov(1, rotated(14, LINK >> 4)),
        mov(5, rotated(12, MESSAGE >> 8)),
        mov(2, number(0x7E)), // 8: frame
        mov(3, number(0)),
        mov(4, plain(5)),
        mov(6, number(15)),
        str(2, 1, 0),
        single(LOAD | UP, 0, 4, 4), // 28: word
        op(ADD, 3, 3, plain(0)),
        str(0, 1, 0),
        ops(SUB, 6, 6, number(1)),
        on(NE, branch_to(44, 28)),
        str(3, 1, 0),
        mov(6, number(100)),
        ops(SUB, 6, 6, number(1)), // 56: wait
        on(NE, branch_to(60, 56)),
        branch_to(64, 8),
    ];
    program(&code, [0; 15])
}

fn put(program: &mut Program, address: u32, values: impl Iterator<Item = i32>) {
    let places = &mut program.words[address as usize / 4..];
    for (place, value) in places.iter_mut().zip(values) {
        *place = value as u32;
    }
}

#[cfg(test)]
mod tests {
    use super::*;
    use interpreter::memory::word;
    use interpreter::plain::Plain;

    fn crc32(bytes: &[u8]) -> u32 {
        !bytes.iter().fold(u32::MAX, |crc, &byte| {
            (0..8).fold(crc ^ u32::from(byte), |crc, _| {
                crc >> 1 ^ if crc & 1 == 1 { 0xEDB8_8320 } else { 0 }
            })
        })
    }

    #[test]
    fn none_stops() {
        for name in NAMES.into_iter().chain([SENDER]) {
            let program = image(name).unwrap();
            let mut memory = program.memory();
            let (_, mut plain) = Plain::start(program.r, program.flags, program.entry, &memory);
            for _ in 0..3 {
                assert_eq!(plain.run(&mut memory, 1_000_000), (0, 1_000_000), "{name}");
            }
        }
    }

    #[test]
    fn twins_do_the_same() {
        let same = |word: u32| {
            let run = |word: u32| {
                let program = program(&[word, branch_to(4, 0)], [0x9876_5432; 15]);
                let mut memory = program.memory();
                let (_, mut plain) = Plain::start(program.r, 5, 0, &memory);
                assert_eq!(plain.run(&mut memory, 8), (0, 8));
                plain
            };
            let twin = twin(word).unwrap();
            twin != word && run(word) == run(twin)
        };
        assert!(same(mov(3, number(7))));
        assert!(same(ops(MVN, 14, 0, by_amount(4, Shift::Lsr, 3))));
        assert!((TST..=CMN).all(|operation| same(ops(operation, 13, 2, number(9)))));
        assert!(same(mul(3, 1, 2)));
        assert!(same(multiply(SETS, 3, 1, 2, 13)));
        assert_eq!(twin(multiply(0, 3, 1, 2, 14)), None);
        assert_eq!(twin(mla(3, 1, 2, 4)), None);
        assert_eq!(twin(ops(CMP, 14, 2, plain(1))), None);
        assert_eq!(twin(op(ADD, 0, 2, plain(1))), None);
    }

    #[test]
    fn the_crc_is_one() {
        let program = image("crc").unwrap();
        let mut memory = program.memory();
        let (_, mut plain) = Plain::start(program.r, program.flags, program.entry, &memory);
        plain.run(&mut memory, 10_000);
        let message = MESSAGE as usize..(MESSAGE + MESSAGE_BYTES) as usize;
        assert_eq!(word(&memory, RESULT), crc32(&memory[message]));
    }

    fn filtered(samples: &[i32]) -> Vec<i32> {
        let sum = |window: &[i32]| window.iter().zip(TAPS).map(|(x, tap)| x * tap).sum::<i32>();
        let windows = samples.windows(TAPS.len());
        windows.map(|window| sum(window) >> 15).collect()
    }

    #[test]
    fn the_filter_is_one() {
        let program = image("fir").unwrap();
        let mut memory = program.memory();
        let (_, mut plain) = Plain::start(program.r, program.flags, program.entry, &memory);
        plain.run(&mut memory, 10_000);
        let words = |from: u32, count: u32| -> Vec<i32> {
            let at = |index| word(&memory, from + 4 * index) as i32;
            (0..count).map(at).collect()
        };
        let samples = words(SAMPLES, OUTPUTS + TAPS.len() as u32 - 1);
        let wanted = filtered(&samples);
        assert_eq!(words(FILTERED, OUTPUTS), wanted);
        assert_eq!(wanted.len() as u32, OUTPUTS);
        assert!(wanted.iter().any(|&it| it > 1000) && wanted.iter().any(|&it| it < -1000));
    }
}
