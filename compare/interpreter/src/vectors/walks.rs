//! Walks over a block's list: where they meet 24 and 25, what comes close, and what else can be due.
//! A topic begins with the walk that is due after the run.

use super::case::{data, Case};
use crate::answers::MOST_BUDGET;
use crate::assembler::*;

const INCREMENT_AFTER: u32 = UP;
const INCREMENT_BEFORE: u32 = UP | BEFORE;
const DECREMENT_AFTER: u32 = 0;
const DECREMENT_BEFORE: u32 = BEFORE;

const EVERY: u32 = 0xFFFF;

pub fn cases() -> Vec<Case> {
    let mut cases = first_middle_last();
    cases.extend(fetched());
    cases.extend(fetched_by_loads());
    cases.extend(beside_a());
    cases.extend(both());
    cases.extend(alone());
    cases.extend(every_mode());
    cases.extend(base_in_the_list());
    cases.extend(places_of_sixteen());
    cases.extend(places_of_fifteen());
    cases.extend(long_lists_that_fit());
    cases.extend(shortest_memory());
    cases.extend(longest_memory());
    cases.extend(wrapped());
    cases.extend(wrapped_from_the_base());
    cases.extend(far());
    cases.extend(low_bits());
    cases.extend(conditions());
    cases.extend(nothing_due());
    cases.extend(held());
    cases.extend(come_back_to());
    cases
}

/// A block that begins at `from`, its base being R13 or another.
#[derive(Clone, Copy)]
struct Moved {
    bits: u32,
    base: u32,
    list: u32,
    from: u32,
}

fn moved(bits: u32, list: u32, from: u32) -> Moved {
    Moved {
        bits,
        base: 13,
        list,
        from,
    }
}

impl Moved {
    fn by(self, base: u32) -> Moved {
        Moved { base, ..self }
    }

    fn word(&self) -> u32 {
        block(self.bits, self.base, self.list)
    }

    /// What the base holds.
    fn value(&self) -> u32 {
        let up = if self.bits & UP != 0 {
            self.from
        } else {
            self.from.wrapping_add(4 * self.list.count_ones())
        };
        let first_left_out = (self.bits & UP != 0) == (self.bits & BEFORE != 0);
        up.wrapping_sub(if first_left_out { 4 } else { 0 })
    }
}

/// Where a block stands.
#[derive(Clone, Copy)]
struct Place {
    length: u32,
    a: u32,
}

const AT_20: Place = Place {
    length: 64,
    a: 0x20,
};

fn at(a: u32) -> Place {
    Place { length: 64, a }
}

/// A MOV of R0 to itself.
fn nothing() -> u32 {
    mov(0, plain(0))
}

/// So many registers, two apart from R0 on, so that the bits of the list up to one of them are more
/// than the registers.
fn apart(n: u32) -> u32 {
    (0..n).fold(0, |names, index| names | 1 << (2 * index))
}

/// The block at its place, run once; behind it stands a word that does nothing.
fn run(due: (u32, u32), what: &str, place: Place, it: Moved) -> Case {
    let (stop, looked) = due;
    let topic = format!(
        "walk {stop} after {looked}, {what}, bits {:02X}",
        it.bits >> 20
    );
    let case = Case::new(topic, &data(0, place.length.min(64) / 4))
        .length(place.length)
        .at(place.a, &[it.word()])
        .entry(place.a)
        .r(it.base as usize, it.value())
        .count(1);
    if place.a + 4 < place.length {
        case.at(place.a + 4, &[nothing()])
    } else {
        case
    }
}

/// The block left due: the count is spent on a word ahead of it, which does nothing.
fn left(due: (u32, u32), what: &str, place: Place, it: Moved) -> Case {
    let entry = place.a - 4;
    run(due, what, place, it)
        .at(entry, &[nothing()])
        .entry(entry)
}

/// 24 at the first, a middle and the last of five registers.
fn first_middle_last() -> Vec<Case> {
    let names = list(&[0, 3, 7, 9, 14]);
    let mut cases = Vec::new();
    for (looked, what, from) in [
        (1, "the first of five", 0x40),
        (3, "the middle of five", 0x38),
        (5, "the last of five", 0x30),
    ] {
        for bits in [STORE | INCREMENT_AFTER, LOAD | DECREMENT_BEFORE | W] {
            cases.push(run((24, looked), what, AT_20, moved(bits, names, from)));
        }
    }
    cases
}

/// Stores whose first, middle or last register goes to A+4 or A+8.
fn fetched() -> Vec<Case> {
    let rows = [
        ("A+4 the first of four", INCREMENT_AFTER, 4, 0x24),
        ("A+8 the first of four", INCREMENT_BEFORE | W, 4, 0x28),
        ("A+4 and A+8 in the middle", DECREMENT_AFTER, 6, 0x1C),
        ("A+4 the last of four", DECREMENT_BEFORE | W, 4, 0x18),
        ("A+8 the last of four", INCREMENT_AFTER | W, 4, 0x1C),
    ];
    let mut cases: Vec<Case> = rows
        .into_iter()
        .map(|(what, bits, n, from)| run((25, n), what, AT_20, moved(STORE | bits, apart(n), from)))
        .collect();
    // A+8 is past the end.
    let last = moved(STORE | INCREMENT_AFTER, apart(3), 0x34);
    cases.push(run((25, 3), "A+4 the last word", at(0x38), last));
    cases
}

/// Loads of the same, which never meet 25.
fn fetched_by_loads() -> Vec<Case> {
    let rows = [
        ("a load of A+4 first", INCREMENT_AFTER, 4, 0x24),
        ("a load of A+4 and A+8", DECREMENT_AFTER, 6, 0x1C),
    ];
    let mut cases: Vec<Case> = rows
        .into_iter()
        .map(|(what, bits, n, from)| left((0, n), what, AT_20, moved(LOAD | bits, apart(n), from)))
        .collect();
    let up = moved(LOAD | INCREMENT_AFTER | W, apart(6), 0x1C);
    cases.push(run((0, 0), "a load of A+4 and A+8 done", AT_20, up));
    let crossing = moved(LOAD | INCREMENT_AFTER, apart(8), 0x24);
    cases.push(run((24, 8), "a load from A+4 on", AT_20, crossing));
    cases
}

/// Stores that end at A or begin at A+12.
fn beside_a() -> Vec<Case> {
    let end = moved(STORE | DECREMENT_AFTER | W, list(&[0, 7, 15]), 0x18);
    let begin = moved(STORE | INCREMENT_BEFORE | W, list(&[1, 8, 15]), 0x2C);
    vec![
        left((0, 3), "a store that ends at A", AT_20, end),
        run((0, 0), "a store that ended at A", AT_20, end),
        left((0, 3), "a store that begins at A+12", AT_20, begin),
    ]
}

/// 24 and 25 in one list, in both orders and on the same register.
fn both() -> Vec<Case> {
    let row = |looked, what, a, bits, n, from| {
        let it = moved(STORE | bits, apart(n), from);
        run((24, looked), what, at(a), it)
    };
    let below = moved(STORE | INCREMENT_AFTER, 0x0FFF, 0x24);
    vec![
        run((24, 8), "24 in the middle above 25", AT_20, below),
        row(3, "24 right above 25", 0x34, INCREMENT_BEFORE, 3, 0x38),
        row(2, "24 right above A+8", 0x34, DECREMENT_BEFORE, 2, 0x3C),
        row(4, "24 above 25 above A", 0x34, INCREMENT_AFTER | W, 6, 0x34),
        row(1, "24 below A+4", 0, DECREMENT_AFTER, 3, 0xFFFF_FFFC),
        row(1, "24 below A+8", 4, DECREMENT_BEFORE, 8, 0xFFFF_FFF4),
        row(1, "24 below 25", 0, INCREMENT_AFTER | W, 5, 0xFFFF_FFF8),
        row(1, "24 at A+4 alone", 0x3C, INCREMENT_AFTER, 1, 0x40),
        row(1, "24 at A+8 alone", 0x38, DECREMENT_AFTER, 1, 0x40),
        row(2, "24 at A+4", 0x3C, DECREMENT_BEFORE | W, 2, 0x3C),
        row(5, "24 at A+8 above A+4", 0x38, INCREMENT_AFTER, 8, 0x30),
    ]
}

/// Lists of one register: past the end, about A, and the last word.
fn alone() -> Vec<Case> {
    let modes = [
        INCREMENT_AFTER,
        DECREMENT_BEFORE | W,
        DECREMENT_AFTER | W,
        INCREMENT_BEFORE,
    ];
    let mut cases = Vec::new();
    for (name, mode) in [0, 7, 14, 15].into_iter().zip(modes) {
        let what = |what| format!("R{name} alone {what}");
        let words = |load, from| moved(load | mode, list(&[name]), from);
        let next = if mode & W == 0 { 0x24 } else { 0x28 };
        for load in [STORE, LOAD] {
            let it = words(load, 0x40);
            cases.push(run((24, 1), &what("past the end"), AT_20, it));
        }
        let last = words(STORE, 0x3C);
        cases.push(left((0, 1), &what("at the end"), AT_20, last));
        let store = words(STORE, next);
        cases.push(run((25, 1), &what("about A"), AT_20, store));
        let load = words(LOAD, next);
        cases.push(left((0, 1), &what("loaded about A"), AT_20, load));
    }
    cases
}

/// Every mode with and without W: 24 at the second register, 25 at the first or the last, and a
/// list that ends with the memory.
fn every_mode() -> Vec<Case> {
    let lists: [&[u32]; 4] = [&[0, 7, 15], &[1, 14], &[2, 3, 12, 15], &[5, 10, 11]];
    let mut cases = Vec::new();
    for index in 0..8 {
        let mode = (index % 4) << 23 | (index / 4) << 21;
        let names = list(lists[(index + index / 4) as usize % 4]);
        let n = names.count_ones();
        let words = |load, from| moved(load | mode, names, from);
        for load in [STORE, LOAD] {
            let it = words(load, 0x3C);
            cases.push(run((24, 2), "the second register", AT_20, it));
        }
        let next = words(STORE, if index % 2 == 0 { 0x28 } else { 0x28 - 4 * n });
        cases.push(run((25, n), "a sparse list about A", AT_20, next));
        let load = if index % 3 == 0 { LOAD } else { STORE };
        let end = words(load, 0x40 - 4 * n);
        cases.push(left((0, n), "a sparse list to the end", AT_20, end));
    }
    cases
}

/// The base as the lowest, a middle and the highest register of the list.
fn base_in_the_list() -> Vec<Case> {
    let mut cases = Vec::new();
    for (what, base) in [
        ("base the lowest", 1),
        ("base in the middle", 6),
        ("base the highest", 12),
    ] {
        let names = list(&[1, 6, 12]);
        let past = moved(LOAD | DECREMENT_AFTER, names, 0x38).by(base);
        cases.push(run((24, 3), what, AT_20, past));
        let next = moved(STORE | INCREMENT_BEFORE | W, names, 0x1C).by(base);
        cases.push(run((25, 3), what, AT_20, next));
        let fits = moved(STORE | DECREMENT_BEFORE | W, names, 0x34).by(base);
        cases.push(left((0, 3), what, AT_20, fits));
    }
    cases
}

/// The four modes, with and without W, as stores and loads in turn.
fn turn(index: u32) -> u32 {
    (index % 4) << 23 | (index / 4 % 2) << 21 | (index / 2 % 2) << 20
}

/// All sixteen registers, 24 at each of them.
fn places_of_sixteen() -> Vec<Case> {
    (1..=16)
        .map(|place| {
            let it = moved(turn(place), EVERY, 0x44 - 4 * place).by(place % 15);
            run((24, place), "of sixteen", AT_20, it)
        })
        .collect()
}

/// All registers but one, 24 at each of the fifteen.
fn places_of_fifteen() -> Vec<Case> {
    (1..=15)
        .map(|place| {
            let names = EVERY & !(1 << (7 * place % 16));
            let it = moved(turn(place + 2), names, 0x44 - 4 * place).by(3 * place % 15);
            run((24, place), "of fifteen", AT_20, it)
        })
        .collect()
}

/// Sixteen registers are as long as the memory. A store of them meets A+4, unless that is outside.
fn long_lists_that_fit() -> Vec<Case> {
    let all = |bits: u32| moved(bits, EVERY, 0);
    let store = all(STORE | DECREMENT_BEFORE | W);
    let up = moved(STORE | INCREMENT_AFTER, EVERY, 4);
    let fifteen = moved(STORE | DECREMENT_AFTER, EVERY & !0x80, 4);
    vec![
        left((0, 16), "a load of all", AT_20, all(LOAD | UP)),
        run((25, 16), "a store of all", AT_20, store),
        left((0, 16), "a store of all, A last", at(0x3C), store),
        run((0, 0), "a store of all over A, done", at(0x3C), store),
        run((25, 16), "a store of all, A+4 last", at(0x38), store),
        run((24, 16), "one past all, A+4 before it", at(0x38), up),
        left((0, 15), "all but one, A last", at(0x3C), fifteen),
    ]
}

fn shortest_memory() -> Vec<Case> {
    let place = |a| Place { length: 16, a };
    let store = |n, from| moved(STORE | INCREMENT_AFTER, apart(n), from);
    let load = |list, from| moved(LOAD | DECREMENT_BEFORE, list, from);
    let what = "16 bytes";
    vec![
        run((24, 5), what, place(0), load(EVERY, 0)),
        run((24, 2), what, place(4), load(apart(7), 0xC)),
        left((0, 4), what, place(4), load(apart(4), 0)),
        run((25, 4), what, place(0), store(4, 0)),
        run((25, 1), what, place(0), store(1, 8)),
        left((0, 3), what, place(8), store(3, 0)),
        left((0, 2), what, place(4), store(2, 0)),
        left((0, 4), what, place(12), store(4, 0)),
    ]
}

fn longest_memory() -> Vec<Case> {
    let place = Place {
        length: 65_536,
        ..AT_20
    };
    let store = |list, from| moved(STORE | INCREMENT_BEFORE | W, list, from);
    let load = |list, from| moved(LOAD | DECREMENT_AFTER | W, list, from);
    let what = "65536 bytes";
    vec![
        left((0, 16), what, place, store(EVERY, 0xFFC0)),
        run((24, 16), what, place, store(EVERY, 0xFFC4)),
        run((24, 2), what, place, load(apart(6), 0xFFFC)),
        run((24, 1), what, place, store(apart(3), 0x1_0024)),
        run((25, 16), what, place, store(EVERY, 0x24)),
    ]
}

/// Lists past 2^32, of which the first register meets 24 wherever the others come to be.
fn wrapped() -> Vec<Case> {
    let rows = [
        (LOAD | INCREMENT_BEFORE, 3, 0xFFFF_FFFC, 0x20),
        (STORE | DECREMENT_BEFORE | W, 2, 0xFFFF_FFFC, 0x3C),
        (LOAD | DECREMENT_AFTER, 8, 0xFFFF_FFF0, 4),
        (STORE | INCREMENT_BEFORE | W, 8, 0xFFFF_FFF0, 8),
    ];
    let mut cases: Vec<Case> = rows
        .into_iter()
        .map(|(bits, n, from, a)| run((24, 1), "past 2^32", at(a), moved(bits, apart(n), from)))
        .collect();
    let up_to = moved(STORE | INCREMENT_AFTER, EVERY, 0xFFFF_FFC0);
    cases.push(run((24, 1), "up to 2^32", AT_20, up_to));
    let just_past = moved(LOAD | DECREMENT_AFTER, EVERY, 0xFFFF_FFC4);
    cases.push(run((24, 1), "just past 2^32", AT_20, just_past));
    cases
}

/// The base is close to 2^32 or to 0, and the lowest address on the other side.
fn wrapped_from_the_base() -> Vec<Case> {
    let before = |bits: u32, n, from| moved(bits | INCREMENT_BEFORE, apart(n), from);
    let after = |bits: u32, n, from| moved(bits | DECREMENT_AFTER, apart(n), from);
    let past = "base at FFFFFFFC";
    vec![
        left((0, 2), past, AT_20, before(STORE | W, 2, 0)),
        run((25, 2), past, at(0), before(STORE, 2, 0)),
        run((25, 3), past, at(0), before(STORE | W, 3, 0)),
        left((0, 1), "base at FFFFFFFF", AT_20, before(LOAD | W, 1, 3)),
        left((0, 1), "base at 0", AT_20, after(STORE, 1, 0)),
        run((24, 1), "base at 0", AT_20, after(STORE, 2, 0xFFFF_FFFC)),
        run((24, 1), "base at 3", AT_20, after(LOAD | W, 2, 0xFFFF_FFFF)),
    ]
}

/// Lists that begin where an address would be inside, or A+4, if it had fewer bits.
fn far() -> Vec<Case> {
    let rows = [
        (0x8000_0000, STORE | INCREMENT_AFTER),
        (0x8000_0000, LOAD | DECREMENT_BEFORE | W),
        (0x8000_0024, STORE | DECREMENT_AFTER | W),
        (0x0400_0000, STORE | DECREMENT_BEFORE),
        (0x0400_0000, LOAD | INCREMENT_AFTER),
        (0x0400_0024, STORE | INCREMENT_AFTER | W),
    ];
    let case = |(from, bits)| {
        let it = moved(bits, list(&[0, 7, 15]), from);
        run((24, 1), &format!("from {from:X}"), AT_20, it)
    };
    rows.map(case).to_vec()
}

/// A base whose low two bits are not 0.
fn low_bits() -> Vec<Case> {
    let rows = [
        ((25, 1), INCREMENT_AFTER, 1, 0x25),
        ((25, 2), INCREMENT_BEFORE | W, 2, 0x2B),
        ((25, 3), DECREMENT_AFTER, 3, 0x1E),
        ((0, 2), DECREMENT_BEFORE | W, 2, 0x1F),
        ((0, 3), INCREMENT_BEFORE, 3, 0x37),
        ((24, 1), DECREMENT_BEFORE, 2, 0x41),
        ((24, 2), DECREMENT_AFTER | W, 4, 0x3F),
        ((24, 1), DECREMENT_BEFORE, 1, 0xFFFF_FFFE),
    ];
    let case = |(due, bits, n, from): ((u32, u32), u32, u32, u32)| {
        let what = format!("from {from:X}");
        let it = moved(STORE | bits, apart(n), from);
        if due.0 == 0 {
            left(due, &what, AT_20, it)
        } else {
            run(due, &what, AT_20, it)
        }
    };
    rows.map(case).to_vec()
}

/// A block on a condition: left due, its walk is the same on any; where the condition fails it is
/// passed, and what is due is the word behind it.
fn conditions() -> Vec<Case> {
    let past = moved(LOAD | INCREMENT_AFTER, apart(4), 0x38);
    let next = moved(STORE | DECREMENT_AFTER | W, apart(3), 0x24);
    let fits = moved(STORE | INCREMENT_BEFORE, apart(3), 4);
    let under = |condition, case: Case, it: Moved| case.at(0x20, &[on(condition, it.word())]);
    let kept = |due, condition, it| {
        let what = format!("left under condition {condition}");
        under(condition, left(due, &what, AT_20, it), it)
    };
    let done = |due, condition, it| {
        let what = format!("under condition {condition}");
        under(condition, run(due, &what, AT_20, it), it)
    };
    let before = |due, word| done(due, NEVER, past).at(0x24, &[word]);
    let before_past = before((24, 3), past.word());
    let before_next = before((25, 3), next.word()).r(13, 0x30);
    let at_the_end = run((0, 0), "failing at the end", at(0x3C), past);
    vec![
        kept((24, 3), NEVER, past),
        kept((25, 3), 0, next),
        kept((0, 3), NEVER, fits),
        done((24, 3), 0, past).flags(4),
        done((0, 0), 0, past),
        done((0, 0), 0, past).count(2),
        before_past.clone(),
        before_past.count(2),
        before_next,
        at_the_end.at(0x3C, &[on(NEVER, past.word())]).count(2),
    ]
}

/// Words and records of which no walk is due, whatever the list.
fn nothing_due() -> Vec<Case> {
    let past = moved(STORE | INCREMENT_AFTER, apart(4), 0x38);
    let next = moved(STORE | INCREMENT_AFTER, apart(3), 0x24);
    let none = |what| left((0, 0), what, AT_20, past);
    let words = [
        ("base 15", block(STORE | UP, 15, 7)),
        ("S=1", block(STORE | UP | S_BIT, 13, 7)),
        ("no register", block(LOAD | UP | W, 13, 0)),
    ];
    let mut cases: Vec<Case> = words
        .into_iter()
        .map(|(what, word)| none(what).at(AT_20.a, &[word]))
        .collect();
    cases.push(run((0, 0), "a shorter memory", AT_20, past).lent(60));
    cases.push(run((0, 0), "a longer memory", AT_20, next).lent(68));
    cases.push(run((0, 0), "a refused start", at(0), past).flags(16));
    let empty = run((0, 0), "a refused start, no memory", at(0), past);
    cases.push(empty.flags(16).lent(0));
    let many = MOST_BUDGET as u32 + 1;
    cases.push(run((24, 3), "a count too large", AT_20, past).count(many));
    cases
}

/// Records that hold a stop, mostly another than their word's, and one that holds none yet.
fn held() -> Vec<Case> {
    let past = moved(STORE | INCREMENT_AFTER, apart(6), 0x34);
    let next = moved(STORE | INCREMENT_BEFORE, apart(3), 0x28);
    let fits = moved(LOAD | DECREMENT_BEFORE, list(&[0, 7, 15]), 0);
    let of = |due, stop, place, it| {
        let what = format!("held stop {stop}");
        run(due, &what, place, it).record(stop)
    };
    vec![
        of((0, 3), 21, at(0), fits),
        of((24, 4), 24, AT_20, past),
        of((25, 3), 22, AT_20, next),
        of((25, 3), 24, AT_20, next),
        of((24, 4), 25, AT_20, past),
        of((0, 3), 25, AT_20, fits),
        of((0, 0), 23, AT_20, past).entry(0x40),
        of((24, 4), 0, AT_20, past),
    ]
}

/// Loads of R15 that lead to the block itself, whose base has gone on.
fn come_back_to() -> Vec<Case> {
    let of = |due, bits, names: &[u32], from| {
        let it = moved(LOAD | bits, list(names), from).by(4);
        run(due, "come back to", AT_20, it)
    };
    let up = INCREMENT_AFTER | W;
    vec![
        of((0, 2), up, &[1, 15], 0x30).at(0x34, &[0x20]),
        of((24, 2), up, &[1, 15], 0x34).at(0x38, &[0xF000_0023]),
        of((24, 1), up, &[0, 1, 15], 0x34)
            .at(0x3C, &[0x20])
            .count(2),
        of((24, 1), up, &[4, 15], 0x30).at(0x30, &[0x40, 0x20]),
        of((24, 1), DECREMENT_AFTER | W, &[0, 15], 4).at(4, &[1, 0x20]),
    ]
}
