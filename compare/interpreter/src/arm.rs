//! Words, conditions, shifts and operations: what both machines share.

/// The carry flag as a number in the flags 8N+4Z+2C+V.
pub const C: u32 = 2;

/// The four ways to shift, in the order of bits 6..5.
#[derive(Clone, Copy, Debug, PartialEq, Eq)]
pub enum Shift {
    Lsl,
    Lsr,
    Asr,
    Ror,
}

#[derive(Clone, Copy, Debug, PartialEq, Eq)]
pub enum Operand {
    Constant {
        rotation: u32,
        value: u32,
    },
    ByAmount {
        rm: usize,
        shift: Shift,
        amount: u32,
    },
    ByRegister {
        rm: usize,
        shift: Shift,
        rs: usize,
    },
}

#[derive(Clone, Copy, Debug, PartialEq, Eq)]
pub enum Offset {
    Number(u32),
    Shifted {
        rm: usize,
        shift: Shift,
        amount: u32,
    },
}

#[derive(Clone, Copy, Debug, PartialEq, Eq)]
pub struct Processing {
    pub operation: u32,
    pub sets: bool,
    pub rn: usize,
    pub rd: usize,
    pub operand: Operand,
}

#[derive(Clone, Copy, Debug, PartialEq, Eq)]
pub struct Single {
    pub before: bool,
    pub up: bool,
    pub byte: bool,
    pub w: bool,
    pub load: bool,
    pub rn: usize,
    pub rd: usize,
    pub offset: Offset,
}

#[derive(Clone, Copy, Debug, PartialEq, Eq)]
pub struct Block {
    pub before: bool,
    pub up: bool,
    pub s: bool,
    pub w: bool,
    pub load: bool,
    pub rn: usize,
    pub list: u32,
}

#[derive(Clone, Copy, Debug, PartialEq, Eq)]
pub struct Branch {
    pub link: bool,
    /// Four times the signed offset, modulo 2^32.
    pub distance: u32,
}

#[derive(Clone, Copy, Debug, PartialEq, Eq)]
pub struct Multiply {
    pub accumulate: bool,
    pub sets: bool,
    pub rd: usize,
    /// Added where it accumulates, else without use.
    pub rn: usize,
    pub rs: usize,
    pub rm: usize,
}

#[derive(Clone, Copy, Debug, PartialEq, Eq)]
pub enum Instruction {
    Processing(Processing),
    Single(Single),
    Block(Block),
    Branch(Branch),
    Multiply(Multiply),
    Other,
}

fn bits(word: u32, high: u32, low: u32) -> u32 {
    (word >> low) & ((1 << (high - low + 1)) - 1)
}

fn bit(word: u32, place: u32) -> bool {
    bits(word, place, place) == 1
}

fn register(word: u32, low: u32) -> usize {
    bits(word, low + 3, low) as usize
}

fn shift_kind(word: u32) -> Shift {
    match bits(word, 6, 5) {
        0 => Shift::Lsl,
        1 => Shift::Lsr,
        2 => Shift::Asr,
        _ => Shift::Ror,
    }
}

/// Reads a word. The condition plays no part in it.
pub fn decode(word: u32) -> Instruction {
    decode_multiply(word).map_or_else(|| decode_inline(word), Instruction::Multiply)
}

/// The same inside its caller, which then works out no more fields than it uses. A multiply is still
/// an Other here, for `decode_multiply` to tell from one: with its fields among those of the other
/// classes the compiler works out all of them for all.
#[inline(always)]
pub fn decode_inline(word: u32) -> Instruction {
    match bits(word, 27, 25) {
        0 | 1 => decode_processing(word),
        2 | 3 => decode_single(word),
        4 => Instruction::Block(Block {
            before: bit(word, 24),
            up: bit(word, 23),
            s: bit(word, 22),
            w: bit(word, 21),
            load: bit(word, 20),
            rn: register(word, 16),
            list: bits(word, 15, 0),
        }),
        5 => Instruction::Branch(Branch {
            link: bit(word, 24),
            distance: (((word << 8) as i32) >> 6) as u32,
        }),
        _ => Instruction::Other,
    }
}

#[inline(always)]
fn decode_processing(word: u32) -> Instruction {
    let operand = if bit(word, 25) {
        Operand::Constant {
            rotation: bits(word, 11, 8),
            value: bits(word, 7, 0),
        }
    } else if !bit(word, 4) {
        Operand::ByAmount {
            rm: register(word, 0),
            shift: shift_kind(word),
            amount: bits(word, 11, 7),
        }
    } else if !bit(word, 7) {
        Operand::ByRegister {
            rm: register(word, 0),
            shift: shift_kind(word),
            rs: register(word, 8),
        }
    } else {
        return Instruction::Other;
    };
    Instruction::Processing(Processing {
        operation: bits(word, 24, 21),
        sets: bit(word, 20),
        rn: register(word, 16),
        rd: register(word, 12),
        operand,
    })
}

/// The word as a multiply, if it is one.
#[inline(always)]
pub fn decode_multiply(word: u32) -> Option<Multiply> {
    let multiplies = bits(word, 27, 22) == 0 && bits(word, 7, 4) == 9;
    multiplies.then(|| Multiply {
        accumulate: bit(word, 21),
        sets: bit(word, 20),
        rd: register(word, 16),
        rn: register(word, 12),
        rs: register(word, 8),
        rm: register(word, 0),
    })
}

#[inline(always)]
fn decode_single(word: u32) -> Instruction {
    let offset = if !bit(word, 25) {
        Offset::Number(bits(word, 11, 0))
    } else if !bit(word, 4) {
        Offset::Shifted {
            rm: register(word, 0),
            shift: shift_kind(word),
            amount: bits(word, 11, 7),
        }
    } else {
        return Instruction::Other;
    };
    Instruction::Single(Single {
        before: bit(word, 24),
        up: bit(word, 23),
        byte: bit(word, 22),
        w: bit(word, 21),
        load: bit(word, 20),
        rn: register(word, 16),
        rd: register(word, 12),
        offset,
    })
}

impl Processing {
    /// TST, TEQ, CMP and CMN store no result.
    pub fn only_compares(&self) -> bool {
        (8..12).contains(&self.operation)
    }
}

impl Single {
    /// The changed base is written.
    pub fn writes_base(&self) -> bool {
        !self.before || self.w
    }
}

impl Block {
    /// The named registers, lowest first.
    pub fn names(&self) -> Vec<usize> {
        (0..16)
            .filter(|&name| bit(self.list, name))
            .map(|name| name as usize)
            .collect()
    }
}

impl Multiply {
    /// Its rules of stop 23.
    pub fn is_forbidden(&self) -> bool {
        self.rd == self.rm || [self.rd, self.rn, self.rs, self.rm].contains(&15)
    }
}

/// Does a word of this condition run under these flags?
pub fn passes(condition: u32, flags: u32) -> bool {
    let (n, z, c, v) = (
        flags & 8 != 0,
        flags & 4 != 0,
        flags & 2 != 0,
        flags & 1 != 0,
    );
    let holds = match condition >> 1 {
        0 => z,
        1 => c,
        2 => n,
        3 => v,
        4 => c && !z,
        5 => n == v,
        6 => !z && n == v,
        _ => true,
    };
    holds == (condition & 1 == 0)
}

/// The rules of stop 23.
pub fn forbidden(instruction: &Instruction) -> bool {
    match instruction {
        Instruction::Processing(it) => {
            matches!(it.operand, Operand::ByRegister { rs: 15, .. })
                || it.only_compares() && !it.sets
        }
        Instruction::Single(it) => {
            it.rn == 15 && it.writes_base()
                || matches!(it.offset, Offset::Shifted { rm: 15, .. })
                || it.byte && it.rd == 15
        }
        Instruction::Block(it) => it.rn == 15 || it.s || it.list == 0,
        Instruction::Multiply(it) => it.is_forbidden(),
        Instruction::Branch(_) | Instruction::Other => false,
    }
}

/// Can an instruction of this word store the counter, whatever the state it runs in? It runs on
/// some flags, breaks no rule by itself, and writes R15.
pub fn can_store_counter(word: u32) -> bool {
    let instruction = decode(word);
    let writes_r15 = match instruction {
        Instruction::Processing(it) => it.rd == 15 && !it.only_compares(),
        Instruction::Single(it) => it.load && it.rd == 15,
        Instruction::Block(it) => it.load && bit(it.list, 15),
        Instruction::Branch(_) => true,
        Instruction::Multiply(_) | Instruction::Other => false,
    };
    (0..16).any(|flags| passes(word >> 28, flags)) && !forbidden(&instruction) && writes_r15
}

/// A shifter's value and its carry.
#[derive(Clone, Copy, Debug, PartialEq, Eq)]
pub struct Shifted {
    pub value: u32,
    pub carry: bool,
}

fn shifted(value: u32, carry: bool) -> Shifted {
    Shifted { value, carry }
}

/// Bits 7..0 of the word rotated right by twice bits 11..8.
pub fn constant(rotation: u32, value: u32, carry: bool) -> Shifted {
    let turned = value.rotate_right(2 * rotation);
    shifted(
        turned,
        if rotation == 0 {
            carry
        } else {
            turned >> 31 == 1
        },
    )
}

/// A shift by an amount of 0..31 that stands in the word.
pub fn shift_by_amount(shift: Shift, amount: u32, value: u32, carry: bool) -> Shifted {
    match (shift, amount) {
        (Shift::Lsr | Shift::Asr, 0) => shift_places(shift, 32, value, carry),
        (Shift::Ror, 0) => shifted(u32::from(carry) << 31 | value >> 1, value & 1 == 1),
        _ => shift_places(shift, amount, value, carry),
    }
}

/// A shift by the low byte of a register.
pub fn shift_by_register(shift: Shift, amount: u32, value: u32, carry: bool) -> Shifted {
    shift_places(shift, amount & 0xFF, value, carry)
}

/// A shift by so many places, 0 meaning none. The value sits in the middle of a number wide
/// enough that the last bit moved out is still there to be seen.
fn shift_places(shift: Shift, places: u32, value: u32, carry: bool) -> Shifted {
    if places == 0 {
        return shifted(value, carry);
    }
    match shift {
        Shift::Lsl => {
            let wide = u64::from(value) << places.min(33);
            shifted(wide as u32, wide >> 32 & 1 == 1)
        }
        Shift::Lsr => {
            let wide = (u64::from(value) << 1) >> places.min(34);
            shifted((wide >> 1) as u32, wide & 1 == 1)
        }
        Shift::Asr => {
            let wide = (i64::from(value as i32) << 1) >> places.min(34);
            shifted((wide >> 1) as u32, wide & 1 == 1)
        }
        Shift::Ror => {
            let turned = value.rotate_right(places % 32);
            shifted(turned, turned >> 31 == 1)
        }
    }
}

/// An operation's result and the flags that S would set, were Rd not 15.
#[derive(Clone, Copy, Debug, PartialEq, Eq)]
pub struct Computed {
    pub result: u32,
    pub flags: u32,
}

/// Operations 0 to 15 on Rn's value and the operand, under the old flags.
pub fn compute(operation: u32, x: u32, operand: Shifted, flags: u32) -> Computed {
    let y = operand.value;
    let carry = i64::from(flags >> 1 & 1);
    match operation {
        2 | 10 => difference(x, y, 0),
        3 => difference(y, x, 0),
        4 | 11 => sum(x, y, 0),
        5 => sum(x, y, carry),
        6 => difference(x, y, 1 - carry),
        7 => difference(y, x, 1 - carry),
        _ => {
            let result = match operation {
                0 | 8 => x & y,
                1 | 9 => x ^ y,
                12 => x | y,
                13 => y,
                14 => x & !y,
                _ => !y,
            };
            Computed {
                result,
                flags: pack(result, operand.carry, flags & 1 == 1),
            }
        }
    }
}

/// A product and what is added to it, under the old flags, of which C and V stay.
pub fn product(x: u32, y: u32, more: u32, flags: u32) -> Computed {
    let result = x.wrapping_mul(y).wrapping_add(more);
    Computed {
        result,
        flags: pack(result, flags & C != 0, flags & 1 == 1),
    }
}

/// The paper's m, a multiply's cycles past its first, by Rs's value: one for bit 0, another for each
/// two bits up to the highest 1; bit 31 would be the 17th and takes none.
pub fn cycles_by_rs(rs: u32) -> u32 {
    let used = u32::BITS - rs.leading_zeros();
    (used / 2 + 1).min(16)
}

fn pack(result: u32, carry: bool, overflow: bool) -> u32 {
    8 * u32::from((result as i32) < 0)
        + 4 * u32::from(result == 0)
        + C * u32::from(carry)
        + u32::from(overflow)
}

fn signed_overflow(exact: i64) -> bool {
    i32::try_from(exact).is_err()
}

fn sum(x: u32, y: u32, more: i64) -> Computed {
    let unsigned = i64::from(x) + i64::from(y) + more;
    let signed = i64::from(x as i32) + i64::from(y as i32) + more;
    let result = unsigned as u32;
    Computed {
        result,
        flags: pack(
            result,
            unsigned > i64::from(u32::MAX),
            signed_overflow(signed),
        ),
    }
}

fn difference(x: u32, y: u32, less: i64) -> Computed {
    let unsigned = i64::from(x) - i64::from(y) - less;
    let signed = i64::from(x as i32) - i64::from(y as i32) - less;
    let result = unsigned as u32;
    Computed {
        result,
        flags: pack(result, unsigned >= 0, signed_overflow(signed)),
    }
}

/// A counter value: 26 bits.
pub fn counter(value: u32) -> u32 {
    value & 0x03FF_FFFF
}

/// The counter that a stored word means: its bits 25..2.
pub fn counter_of(word: u32) -> u32 {
    word & 0x03FF_FFFC
}

/// An R15 word: the flags in 31..28 with a counter value.
pub fn r15_word(flags: u32, at: u32) -> u32 {
    flags << 28 | counter_of(at)
}
