//! Conditions, shifts, sums and the decoder against slower descriptions of them.

use interpreter::arm::*;
use interpreter::durations::ends;
use interpreter::random::Random;

const SHIFTS: [Shift; 4] = [Shift::Lsl, Shift::Lsr, Shift::Asr, Shift::Ror];

#[test]
fn conditions() {
    // One letter a flag value from 0 to 15: does the condition hold?
    let rows = [
        "....yyyy....yyyy", // EQ: Z
        "yyyy....yyyy....",
        "..yy..yy..yy..yy", // CS: C
        "yy..yy..yy..yy..",
        "........yyyyyyyy", // MI: N
        "yyyyyyyy........",
        ".y.y.y.y.y.y.y.y", // VS: V
        "y.y.y.y.y.y.y.y.",
        "..yy......yy....", // HI: C and not Z
        "yy..yyyyyy..yyyy",
        "y.y.y.y..y.y.y.y", // GE: N=V
        ".y.y.y.yy.y.y.y.",
        "y.y......y.y....", // GT: not Z, N=V
        ".y.yyyyyy.y.yyyy",
        "yyyyyyyyyyyyyyyy",
        "................",
    ];
    for (condition, row) in rows.iter().enumerate() {
        for (flags, letter) in row.chars().enumerate() {
            assert_eq!(
                passes(condition as u32, flags as u32),
                letter == 'y',
                "{condition} {flags}"
            );
        }
    }
}

/// One place, and the bit that moved out of it.
#[allow(clippy::manual_rotate)]
fn one_place(shift: Shift, value: u32) -> (u32, bool) {
    match shift {
        Shift::Lsl => (value << 1, value >> 31 == 1),
        Shift::Lsr => (value >> 1, value & 1 == 1),
        Shift::Asr => (value >> 1 | value & 0x8000_0000, value & 1 == 1),
        Shift::Ror => (value >> 1 | value << 31, value & 1 == 1),
    }
}

fn place_by_place(shift: Shift, places: u32, value: u32, carry: bool) -> Shifted {
    let mut it = Shifted { value, carry };
    for _ in 0..places {
        let (value, carry) = one_place(shift, it.value);
        it = Shifted { value, carry };
    }
    it
}

#[test]
fn shifts_place_by_place() {
    let mut random = Random::new(1);
    let mut values = vec![
        0,
        1,
        2,
        0x7FFF_FFFF,
        0x8000_0000,
        0x8000_0001,
        0xFFFF_FFFE,
        u32::MAX,
    ];
    values.extend((0..50).map(|_| random.word()));
    for value in values {
        for carry in [false, true] {
            for shift in SHIFTS {
                for amount in 0..=255 {
                    let slow = place_by_place(shift, amount, value, carry);
                    assert_eq!(shift_by_register(shift, amount, value, carry), slow);
                    assert_eq!(
                        shift_by_register(shift, amount | 0xABCD_EF00, value, carry),
                        slow
                    );
                    if (1..32).contains(&amount) {
                        assert_eq!(shift_by_amount(shift, amount, value, carry), slow);
                    }
                }
            }
            let as_32 = |shift| place_by_place(shift, 32, value, carry);
            let kept = Shifted { value, carry };
            assert_eq!(shift_by_amount(Shift::Lsl, 0, value, carry), kept);
            assert_eq!(
                shift_by_amount(Shift::Lsr, 0, value, carry),
                as_32(Shift::Lsr)
            );
            assert_eq!(
                shift_by_amount(Shift::Asr, 0, value, carry),
                as_32(Shift::Asr)
            );
            let through = shift_by_amount(Shift::Ror, 0, value, carry);
            assert_eq!(through.value & 0x7FFF_FFFF, value >> 1);
            assert_eq!(through.value >> 31 == 1, carry);
            assert_eq!(through.carry, value & 1 == 1);
        }
    }
}

#[test]
fn constants() {
    for value in 0..256 {
        for carry in [false, true] {
            assert_eq!(constant(0, value, carry), Shifted { value, carry });
            for rotation in 1..16 {
                let turned = place_by_place(Shift::Ror, 2 * rotation, value, carry);
                assert_eq!(constant(rotation, value, carry), turned);
            }
        }
    }
}

/// A sum bit by bit: the result, the carry out and the carry into bit 31 unlike it.
fn ripple(x: u32, y: u32, carry: bool) -> (u32, bool, bool) {
    let (mut result, mut carry, mut into_31) = (0, carry, false);
    for place in 0..32 {
        if place == 31 {
            into_31 = carry;
        }
        let (p, q) = (x >> place & 1 == 1, y >> place & 1 == 1);
        result |= u32::from(p ^ q ^ carry) << place;
        carry = p && q || carry && (p || q);
    }
    (result, carry, carry != into_31)
}

#[test]
fn arithmetic_bit_by_bit() {
    let mut random = Random::new(2);
    let mut values = vec![
        0,
        1,
        2,
        0x7FFF_FFFE,
        0x7FFF_FFFF,
        0x8000_0000,
        0x8000_0001,
        u32::MAX,
    ];
    values.extend((0..30).map(|_| random.word()));
    for &x in &values {
        for &y in &values {
            for flags in 0..16 {
                let carry = flags & C != 0;
                let operand = Shifted {
                    value: y,
                    carry: flags & 1 == 1,
                };
                // A subtraction adds the complement and one.
                let cases = [
                    (2, ripple(x, !y, true)),
                    (3, ripple(y, !x, true)),
                    (4, ripple(x, y, false)),
                    (5, ripple(x, y, carry)),
                    (6, ripple(x, !y, carry)),
                    (7, ripple(y, !x, carry)),
                    (10, ripple(x, !y, true)),
                    (11, ripple(x, y, false)),
                ];
                for (operation, (result, c, v)) in cases {
                    let nz = (result >> 31) * 8 + u32::from(result == 0) * 4;
                    let all = nz + 2 * u32::from(c) + u32::from(v);
                    let computed = compute(operation, x, operand, flags);
                    assert_eq!(
                        computed,
                        Computed { result, flags: all },
                        "{operation} {x} {y}"
                    );
                }
            }
        }
    }
}

#[test]
fn logic_keeps_v_and_takes_the_shifters_carry() {
    let (x, y) = (0b1100, 0b1010);
    let cases = [
        (0, 8),
        (1, 6),
        (8, 8),
        (9, 6),
        (12, 14),
        (13, 10),
        (14, 4),
        (15, !0b1010),
    ];
    for (operation, result) in cases {
        for flags in 0..16 {
            for carry in [false, true] {
                let computed = compute(operation, x, Shifted { value: y, carry }, flags);
                let n = if operation == 15 { 8 } else { 0 };
                let expected = n + 2 * u32::from(carry) + (flags & 1);
                assert_eq!(
                    computed,
                    Computed {
                        result,
                        flags: expected
                    }
                );
            }
        }
    }
}

#[test]
fn classes() {
    let class = |word| match decode(word) {
        Instruction::Processing(_) => 'p',
        Instruction::Single(_) => 's',
        Instruction::Block(_) => 'k',
        Instruction::Branch(_) => 'b',
        Instruction::Multiply(_) => 'm',
        Instruction::Other => 'o',
    };
    let cases = [
        (0xE3A0_00FF, 'p'), // a constant with bits 7 and 4
        (0xE1A0_0090, 'o'), // bits 7 and 4 without I
        (0xE1A0_0080, 'p'),
        (0xE1A0_0010, 'p'),
        (0xE000_0291, 'm'),
        (0xE03F_FF9F, 'm'),
        (0xE080_0291, 'o'), // a long multiply
        (0xE040_0291, 'o'),
        (0xE000_02B1, 'o'), // a halfword
        (0xE101_2093, 'o'), // a swap
        (0xE200_0291, 'p'), // a constant
        (0xE000_0211, 'p'),
        (0xE000_0281, 'p'),
        (0xE591_0FFF, 's'), // a number with bit 4
        (0xE791_0010, 'o'), // a register offset with bit 4
        (0xE791_0080, 's'),
        (0xE8BD_0000, 'k'),
        (0xEAFF_FFFE, 'b'),
        (0xEC00_0000, 'o'),
        (0xEE00_0000, 'o'),
        (0xEF00_0000, 'o'),
        (0xFA00_0000, 'b'), // the condition plays no part
        (0xF000_0291, 'm'),
        (0xFF00_0000, 'o'),
    ];
    for (word, letter) in cases {
        assert_eq!(class(word), letter, "{word:08X}");
    }
}

#[test]
fn branch_distances() {
    let distance = |word| match decode(word) {
        Instruction::Branch(it) => it.distance as i32,
        _ => panic!(),
    };
    assert_eq!(distance(0xEAFF_FFFE), -8);
    assert_eq!(distance(0xEA00_0001), 4);
    assert_eq!(distance(0xEA80_0000), -(1 << 25));
    assert_eq!(distance(0xEA7F_FFFF), (1 << 25) - 4);
}

/// With bits 27..25 all 0 and bits 7 and 4 both 1: the multiplies are those whose bits 24..22 and
/// 6..5, written out, are all 0, and the rest is Other.
#[test]
fn multiplies_and_their_neighbours() {
    let mut random = Random::new(8);
    let mut multiplies = 0;
    for index in 0..1 << 11 {
        let fixed = (index >> 6) << 20 | 1 << 7 | (index >> 4 & 3) << 5 | 1 << 4;
        let filling = match index & 15 {
            0 => 0,
            1 => u32::MAX,
            _ => random.word(),
        };
        let word = fixed | filling & 0xF00F_FF0F;
        let digits = format!("{word:032b}");
        let digits = (&digits[4..10], &digits[24..28]);
        let multiplies_here = digits == ("000000", "1001");
        multiplies += u32::from(multiplies_here);
        match decode(word) {
            Instruction::Multiply(_) => assert!(multiplies_here, "{word:08X}"),
            it => assert!(it == Instruction::Other && !multiplies_here, "{word:08X}"),
        }
    }
    assert_eq!(multiplies, 4 * 16);
}

#[test]
fn fields_of_a_multiply() {
    let it = |accumulate, sets, rd, rn, rs, rm| {
        Instruction::Multiply(Multiply {
            accumulate,
            sets,
            rd,
            rn,
            rs,
            rm,
        })
    };
    assert_eq!(decode(0xE000_0291), it(false, false, 0, 0, 2, 1));
    assert_eq!(decode(0x0011_0392), it(false, true, 1, 0, 3, 2));
    assert_eq!(decode(0xE023_6594), it(true, false, 3, 6, 5, 4));
    assert_eq!(decode(0xF03A_BC9D), it(true, true, 10, 11, 12, 13));
    assert_eq!(decode(0xE00A_BC9D), it(false, false, 10, 11, 12, 13));
}

#[test]
fn registers_of_a_multiply() {
    for fields in 0..1u32 << 16 {
        let digits = format!("{fields:04x}");
        let (rd, rm) = (&digits[..1], &digits[3..]);
        let wanted = rd == rm || digits.contains('f');
        for form in [0xE000_0090, 0xE030_0090] {
            let word = form | (fields >> 4) << 8 | fields & 15;
            assert_eq!(forbidden(&decode(word)), wanted, "{word:08X}");
        }
    }
}

/// As the multiplier does it: the lowest bit in one cycle, then two bits in each while there are
/// any left and it has not done sixteen.
fn two_bits_a_cycle(rs: u32) -> u32 {
    let (mut left, mut cycles) = (rs >> 1, 1);
    while left != 0 && cycles < 16 {
        left >>= 2;
        cycles += 1;
    }
    cycles
}

#[test]
fn cycles_of_a_multiply() {
    let table = [
        [0, 1],
        [2, 7],
        [8, 31],
        [32, 127],
        [128, 511],
        [512, 2_047],
        [2_048, 8_191],
        [8_192, 32_767],
        [32_768, 131_071],
        [131_072, 524_287],
        [524_288, 2_097_151],
        [2_097_152, 8_388_607],
        [8_388_608, 33_554_431],
        [33_554_432, 134_217_727],
        [134_217_728, 536_870_911],
        [536_870_912, 4_294_967_295],
    ];
    let mut random = Random::new(9);
    for (m, [least, greatest]) in (1..).zip(table) {
        assert_eq!(ends(m), [least, greatest]);
        let between = (0..1000).map(|_| least + random.below((greatest - least).max(1)));
        for rs in [least, greatest].into_iter().chain(between) {
            assert_eq!(cycles_by_rs(rs), m, "{rs}");
            assert_eq!(two_bits_a_cycle(rs), m, "{rs}");
        }
    }
    for rs in 0..1 << 20 {
        assert_eq!(cycles_by_rs(rs), two_bits_a_cycle(rs));
    }
}

/// A product bit by bit: for each 1 of y the sum with x, one place further up each time.
fn long_hand(x: u32, y: u32, more: u32) -> u32 {
    let (mut sum, mut x) = (more, x);
    for place in 0..32 {
        if y >> place & 1 == 1 {
            sum = ripple(sum, x, false).0;
        }
        x <<= 1;
    }
    sum
}

#[test]
fn products_bit_by_bit() {
    let mut random = Random::new(10);
    let mut values = vec![
        0,
        1,
        2,
        3,
        0xFFFF,
        0x0001_0000,
        0x7FFF_FFFF,
        0x8000_0000,
        0x8000_0001,
        u32::MAX,
    ];
    values.extend((0..20).map(|_| random.word()));
    for &x in &values {
        for &y in &values {
            let near = long_hand(x, y, 0).wrapping_neg();
            for more in [0, 1, near, near.wrapping_sub(1), random.word()] {
                let result = long_hand(x, y, more);
                for flags in 0..16 {
                    let nz = (result >> 31) * 8 + u32::from(result == 0) * 4;
                    let flags_then = nz + flags % 4;
                    let computed = product(x, y, more, flags);
                    assert_eq!(
                        computed,
                        Computed {
                            result,
                            flags: flags_then
                        },
                        "{x} {y} {more}"
                    );
                }
            }
        }
    }
}
