//! What ./rate prints of senders whose period is known, and of runs that end in every way.

mod common;

use interpreter::assembler::*;
use interpreter::random::Random;
use interpreter::rate::figures::{figures, Asked, Refused};
use interpreter::stores::Store;

/// The link buffer, a word at the memory's end.
const LINK: u32 = 0xFF0;

const CLOCK: u64 = 8_000_000;

/// A word that takes a cycle and a tick and does nothing.
const PAUSE: u32 = 0xE1A0_0000;

/// What stands before each store of a frame, turns of a loop of six cycles and seven ticks, and single
/// cycles before the next frame.
struct Sender {
    before: Vec<Before>,
    turns: u32,
    after: u32,
}

/// Loads of three cycles and four ticks, and single cycles.
#[derive(Clone, Copy)]
struct Before {
    loads: u32,
    pauses: u32,
}

impl Sender {
    fn image(&self) -> Vec<u8> {
        // R1 is the link, R0 counts the turns.
        let mut code = vec![mov(1, rotated(14, 0xFF))];
        let frame = 4;
        for before in &self.before {
            code.extend((0..before.loads).map(|_| ldr(3, 1, 4)));
            code.extend((0..before.pauses).map(|_| PAUSE));
            code.push(str(2, 1, 0));
        }
        code.push(mov(0, rotated(14, self.turns >> 4)));
        code.push(op(ORR, 0, 0, number(self.turns & 15)));
        let turn = 4 * code.len() as u32;
        code.extend([PAUSE, PAUSE, ops(SUB, 0, 0, number(1))]);
        code.push(on(1, branch_to(turn + 12, turn)));
        code.extend((0..self.after).map(|_| PAUSE));
        code.push(branch_to(4 * code.len() as u32, frame));
        common::memory(0x1000, &code)
    }

    /// Cycles and ticks from frame to frame: a store is 2 and 4, the loop's last branch is not taken,
    /// and the branch back is 3 and 4.
    fn period(&self) -> (u64, u64) {
        let sum = |of: fn(&Before) -> u32| u64::from(self.before.iter().map(of).sum::<u32>());
        let (loads, pauses) = (
            sum(|it| it.loads),
            sum(|it| it.pauses) + u64::from(self.after) + 2,
        );
        let (words, turns) = (self.before.len() as u64, u64::from(self.turns));
        let cycles = pauses + 3 * loads + 2 * words + 6 * (turns - 1) + 4 + 3;
        let ticks = pauses + 4 * loads + 4 * words + 7 * (turns - 1) + 4 + 4;
        (cycles, ticks)
    }

    fn asked(&self, options: &[u64], buffer: u64, frames: u64) -> Asked {
        Asked {
            image: self.image(),
            from: LINK,
            to: LINK + 4,
            clock: CLOCK,
            options: options.to_vec(),
            buffer,
            cycles: frames * self.period().0,
            end: None,
        }
    }
}

/// The sender that the order tells of: a sync word, fifteen words and their sum, all in 155 cycles of
/// 213 ticks, every 4,349 cycles and 5,040 ticks.
fn bursts() -> Sender {
    let before = |loads, pauses| Before { loads, pauses };
    let mut gaps = vec![before(0, 0), before(1, 1)];
    gaps.extend([before(2, 2); 10]);
    gaps.extend([before(1, 5); 4]);
    gaps.push(before(1, 4));
    Sender {
        before: gaps,
        turns: 631,
        after: 403,
    }
}

fn told(asked: &Asked) -> (String, u8, Vec<Store>) {
    let mut stores = Vec::new();
    let (text, status) = figures(asked, |store| stores.push(*store)).expect("figures");
    (text, status, stores)
}

fn value<'a>(text: &'a str, key: &str) -> &'a str {
    let lines = text.lines().filter_map(|line| line.split_once('='));
    let mut values = lines.filter(|it| it.0 == key).map(|it| it.1);
    values.next().unwrap_or_else(|| panic!("{key} in {text}"))
}

fn option(text: &str, option: u64) -> &str {
    let begins = format!("option={option} ");
    let mut lines = text.lines().filter(|line| line.starts_with(&begins));
    lines.next().unwrap_or_else(|| panic!("{option} in {text}"))
}

/// 100 times kb/s, rounded to the nearest.
fn hundredths(bits: u64, over: u64) -> u64 {
    (bits * CLOCK / 10 + over / 2) / over
}

#[test]
fn the_period_of_the_bursts() {
    let sender = bursts();
    assert_eq!(sender.period(), (4349, 5040));
    let (_, _, stores) = told(&sender.asked(&[864], 17, 9));
    let first: Vec<&Store> = stores.iter().step_by(17).collect();
    for pair in first.windows(2) {
        assert_eq!(pair[1].cycle - pair[0].cycle, 4349);
        assert_eq!(pair[1].tick - pair[0].tick, 5040);
    }
    assert_eq!(stores[16].cycle - stores[0].cycle, 155);
    assert_eq!(stores[16].tick - stores[0].tick, 213);
}

/// "226.65 cycles a store says 1129.5 kb/s, the frame period of 4,349 cycles says 1000.7", the
/// ticks 863.5.
#[test]
fn what_misleads() {
    let (text, _, stores) = told(&bursts().asked(&[864], 17, 8));
    assert_eq!(stores.len(), 8 * 17);
    let span = stores[135].cycle - stores[0].cycle;
    assert_eq!((100 * span + 67) / 135, 22665);
    assert_eq!((hundredths(135 * 32, span) + 5) / 10, 11295);
    assert_eq!((hundredths(17 * 32, 4349) + 5) / 10, 10007);
    assert_eq!((hundredths(17 * 32, 5040) + 5) / 10, 8635);
    // The mean by ticks is too much as well, and no option is chosen by it: 4,320 bits in 35,493 ticks.
    assert_eq!(value(&text, "rate"), "973.8");
    assert_eq!(value(&text, "choice"), "864");
}

#[test]
fn the_bursts_take_864() {
    let (text, status, _) = told(&bursts().asked(&[250, 500, 863, 864, 1000, 1130], 17, 200));
    assert_eq!((status, value(&text, "choice")), (0, "864"));
    // 544 bits less what goes in 213 ticks, 23.004 at 864.
    assert_eq!(
        option(&text, 864),
        "option=864 backlog=521 grows=no fits=yes"
    );
    assert_eq!(
        option(&text, 1000),
        "option=1000 backlog=518 grows=no fits=yes"
    );
    // 0.31 bits of each frame stay at 863, which are 61.69 after 199 of them: too many in the 66th.
    let line = option(&text, 863);
    let kept: f64 = 544.0 - 863.0 * 5040.0 / 8000.0;
    let burst: f64 = 544.0 - 863.0 * 213.0 / 8000.0;
    let backlog = (burst + 199.0 * kept).ceil();
    assert!(
        line.starts_with(&format!("option=863 backlog={backlog} grows=yes fits=no ")),
        "{line}"
    );
    let frame = ((544.0 - burst) / kept).ceil() as u64;
    let (store, tick) = (17 * (frame + 1), 8 + frame * 5040 + 213);
    assert!(
        line.ends_with(&format!(" overflow_store={store} overflow_tick={tick}")),
        "{line}"
    );
    // So it fits a short run, and a long one with a large buffer, and yet it grows.
    for (buffer, frames) in [(17, 60), (1000, 200)] {
        let (text, status, _) = told(&bursts().asked(&[863], buffer, frames));
        assert!(option(&text, 863).ends_with("grows=yes fits=yes"), "{text}");
        assert_eq!((status, value(&text, "choice")), (1, "none"));
    }
    // A word less than the burst needs.
    let (text, status, _) = told(&bursts().asked(&[864, 1000, 9000], 16, 200));
    assert!(option(&text, 864)
        .starts_with("option=864 backlog=521 grows=no fits=no overflow_store=17 "));
    assert_eq!((status, value(&text, "choice")), (0, "9000"));
}

/// The two lines that the order shows, after eight frames and with a buffer of one.
#[test]
fn the_lines_of_the_order() {
    let (text, _, stores) = told(&bursts().asked(&[500, 864], 17, 8));
    assert_eq!(
        option(&text, 864),
        "option=864 backlog=521 grows=no fits=yes"
    );
    // The eleventh store of the second frame.
    let tick = stores[27].tick;
    let wanted =
        format!("option=500 backlog=2134 grows=yes fits=no overflow_store=28 overflow_tick={tick}");
    assert_eq!(option(&text, 500), wanted);
}

/// The least of the options that take a period's bits in its ticks, of senders of any period.
#[test]
fn the_period_decides() {
    let mut random = Random::new(201);
    for _ in 0..60 {
        let sender = Sender {
            before: (0..1 + random.below(17))
                .map(|_| Before {
                    loads: random.below(3),
                    pauses: random.below(12),
                })
                .collect(),
            turns: 1 + random.below(300),
            after: random.below(100),
        };
        let (_, ticks) = sender.period();
        let bits = 32 * sender.before.len() as u64;
        let enough = (bits * CLOCK).div_ceil(1000 * ticks);
        let options = [enough / 2, enough - 1, enough, enough + 1, 3 * enough];
        let options: Vec<u64> = options.into_iter().filter(|&it| it > 0).collect();
        let mut rising = options.clone();
        rising.dedup();
        let buffer = 100_000;
        let (text, status, _) = told(&sender.asked(&rising, buffer, 30));
        assert_eq!(
            (status, value(&text, "choice")),
            (0, enough.to_string().as_str()),
            "{text}"
        );
        assert!(option(&text, enough).ends_with("grows=no fits=yes"));
        for less in rising.into_iter().filter(|&it| it < enough) {
            assert!(option(&text, less).ends_with("grows=yes fits=yes"));
        }
    }
}

// ---- the whole text

fn small(code: &[u32], options: &[u64], buffer: u64, cycles: u64, end: Option<u32>) -> Asked {
    Asked {
        image: common::memory(0x200, code),
        from: 0x100,
        to: 0x10C,
        clock: CLOCK,
        options: options.to_vec(),
        buffer,
        cycles,
        end,
    }
}

/// MOV R2, #&100; STR, STRB in a row, a block across the window's upper edge, SWI.
fn code() -> [u32; 5] {
    [
        mov(2, rotated(12, 1)),
        str(1, 2, 0),
        single(STORE | BYTE | BEFORE | UP, 1, 2, 6),
        block(STORE | UP | BEFORE, 2, 0xF),
        SWI,
    ]
}

const TEXT: &str = "\
length=512
end=22
end_address=00000010
end_word=EF000000
cycles=12
ticks=19
stores=4
bits=104
first_cycle=5
first_tick=8
last_cycle=10
last_tick=17
least_gap_cycles=1
least_gap_ticks=1
greatest_gap_cycles=2
greatest_gap_ticks=4
rate=64000.0
option=8000 backlog=95 grows=yes fits=no overflow_store=2 overflow_tick=12
option=48000 backlog=58 grows=yes fits=no overflow_store=4 overflow_tick=17
choice=none
claim=this image from address 0 with zero registers and flags, for 12 cycles; no other input
";

/// The first option takes a bit in each tick, the other six: after the stores there are 32, 36, 64
/// and 95 bits, and 32, 16, 32 and 58, as the third finds the buffer empty.
#[test]
fn to_a_stop() {
    let asked = small(&code(), &[8000, 48000], 1, 100, Some(0x10));
    let (text, status, stores) = told(&asked);
    assert_eq!((text.as_str(), status), (TEXT, 1));
    assert_eq!(
        rows(&stores),
        [
            (5, 8, 0x100, 4),
            (7, 12, 0x106, 1),
            (9, 16, 0x104, 4),
            (10, 17, 0x108, 4)
        ]
    );
}

fn rows(stores: &[Store]) -> Vec<(u64, u64, u32, u32)> {
    let row = |it: &Store| (it.cycle, it.tick, it.address, it.bytes);
    stores.iter().map(row).collect()
}

/// By every budget: too few stores, a block cut in its middle, whose last store is past the sums'
/// ticks, and the stop, which is none where it is due just as the budget is spent.
#[test]
fn by_every_budget() {
    for cycles in 1..15 {
        let refused = |end| {
            figures(&small(&code(), &[8000], 9, cycles, end), |_| {
                panic!("a store")
            })
        };
        let stop = Refused::Stop {
            stop: 22,
            address: 0x10,
        };
        if cycles < 7 {
            let stores = u64::from(cycles >= 5);
            assert_eq!(refused(None).unwrap_err(), Refused::Stores(stores));
            continue;
        }
        if cycles > 12 {
            assert_eq!(refused(None).unwrap_err(), stop);
            assert_eq!(refused(Some(0x14)).unwrap_err(), stop);
            continue;
        }
        let (text, _, stores) = told(&small(&code(), &[8000], 9, cycles, None));
        assert_eq!(value(&text, "end"), "0");
        assert!(!text.contains("end_"));
        assert_eq!(value(&text, "cycles"), cycles.to_string());
        assert_eq!(value(&text, "stores"), stores.len().to_string());
        let ticks = match cycles {
            7 => 12,
            8..=11 => 12,
            _ => 19,
        };
        assert_eq!(value(&text, "ticks"), ticks.to_string());
        let last = stores[stores.len() - 1].tick;
        assert_eq!(last > ticks, (9..12).contains(&cycles));
    }
}

/// A stop of each kind at the end, and a stop before two stores: the stop is told, unless it is the
/// end.
#[test]
fn every_stop() {
    let first = [mov(2, rotated(12, 1)), str(1, 2, 0)];
    let stops = [
        (22, SWI),
        (23, mul(1, 1, 3)),
        (24, ldr(1, 2, 0x100)),
        (25, str(1, 15, 0)),
    ];
    for (stop, word) in stops {
        for more in [0, 1] {
            let mut code = first.to_vec();
            code.extend((0..more).map(|_| str(1, 2, 4)));
            code.push(word);
            let address = 4 * (code.len() as u32 - 1);
            let refused = Refused::Stop { stop, address };
            assert_eq!(
                figures(&small(&code, &[9], 1, 99, None), |_| ()),
                Err(refused)
            );
            assert_eq!(
                figures(&small(&code, &[9], 1, 99, Some(0)), |_| ()),
                Err(refused)
            );
            let asked = small(&code, &[9], 1, 99, Some(address));
            if more == 0 {
                assert_eq!(figures(&asked, |_| ()), Err(Refused::Stores(1)));
                continue;
            }
            let (text, _, _) = told(&asked);
            assert_eq!(value(&text, "end"), stop.to_string());
            assert_eq!(value(&text, "end_address"), format!("{address:08X}"));
            assert_eq!(value(&text, "end_word"), format!("{word:08X}"));
        }
    }
    // Past the end of the memory there is no word.
    let code = [
        mov(2, rotated(12, 1)),
        str(1, 2, 0),
        str(1, 2, 4),
        branch_to(12, 0x1F8),
    ];
    let (text, _, _) = told(&small(&code, &[9], 1, 999, Some(0x200)));
    assert_eq!(
        (value(&text, "end"), value(&text, "end_address")),
        ("21", "00000200")
    );
    assert!(!text.contains("end_word"), "{text}");
}

#[test]
fn what_is_refused_before_the_run() {
    let asked = small(&code(), &[8000], 9, 100, Some(0x10));
    for length in [0, 12, 18, 65_540] {
        let asked = Asked {
            image: vec![0; length],
            ..asked.clone()
        };
        assert_eq!(figures(&asked, |_| ()), Err(Refused::Length));
    }
    for (from, to) in [
        (0x100, 0x100),
        (0x104, 0x100),
        (0x101, 0x104),
        (0x100, 0x102),
        (0x100, 0x204),
        (0x200, 0x204),
    ] {
        let asked = Asked {
            from,
            to,
            ..asked.clone()
        };
        assert_eq!(
            figures(&asked, |_| ()),
            Err(Refused::Window),
            "{from:X} {to:X}"
        );
    }
}
