//! The pipeline against the plain machine by the paper's third term, on random programs.

mod common;

use common::memory;
use common::table::{added, plus, START};
use interpreter::arm::{cycles_by_rs, decode, forbidden, passes, Instruction, Shift};
use interpreter::assembler::*;
use interpreter::durations::{duration, ends};
use interpreter::memory as words;
use interpreter::pipeline::{Core, Phase};
use interpreter::plain::Plain;
use interpreter::programs::{lively, noise, program, Program};
use interpreter::random::Random;
use interpreter::sums::Sums;

/// What the plain machine does, up to a stop or until the cycles pass a limit.
struct History {
    /// 2 plus the durations of the first k instructions, for k from 0.
    sums: Vec<u64>,
    /// The start's N, S and I with those that the first k instructions add, by the paper's table.
    slot_sums: Vec<Sums>,
    /// The machine and its memory after k instructions.
    states: Vec<(Plain, Vec<u8>)>,
    /// The stop, if it came before the limit.
    stop: Option<u32>,
}

impl History {
    fn of(program: &Program, limit: u64) -> History {
        let mut memory = program.memory();
        let (answer, mut plain) = Plain::start(program.r, program.flags, program.entry, &memory);
        assert_eq!(answer, 0);
        let mut history = History {
            sums: vec![2],
            slot_sums: vec![START],
            states: vec![(plain.clone(), memory.clone())],
            stop: None,
        };
        let (mut total, mut slot) = (2, START);
        while total <= limit {
            let word = words::fetch(&memory, plain.a);
            let (flags, r) = (plain.flags, plain.r);
            let stop = plain.step(&mut memory);
            if stop != 0 {
                history.stop = Some(stop);
                break;
            }
            let word = word.expect("a word that ran");
            total += duration(word, flags, &r);
            slot = plus(slot, added(word, flags, &r));
            history.sums.push(total);
            history.slot_sums.push(slot);
            history.states.push((plain.clone(), memory.clone()));
        }
        history
    }

    /// The stop and its total.
    fn stop_total(&self) -> Option<(u32, u64)> {
        self.stop.map(|stop| (stop, *self.sums.last().unwrap()))
    }

    fn retired(&self, total: u64) -> u64 {
        let boundaries = self.sums.iter().filter(|&&sum| sum <= total).count();
        boundaries.saturating_sub(1) as u64
    }

    fn distance(&self, total: u64) -> u64 {
        self.sums.iter().find(|&&sum| sum >= total).unwrap() - total
    }
}

/// Makes the calls of a list and compares every one with the term.
struct Follower<'a> {
    history: &'a History,
    core: Core,
    memory: Vec<u8>,
    total: u64,
    answered: u32,
}

impl Follower<'_> {
    fn new<'a>(program: &Program, history: &'a History) -> Follower<'a> {
        let memory = program.memory();
        let (answer, core) = Core::start(program.r, program.flags, program.entry, &memory);
        assert_eq!(answer, 0);
        assert_eq!(memory, program.memory());
        Follower {
            history,
            core,
            memory,
            total: 0,
            answered: 0,
        }
    }

    fn run(&mut self, budget: u64) {
        let (answer, used) = match self.history.stop_total() {
            _ if self.answered != 0 => (self.answered, 0),
            Some((stop, at)) if at < self.total + budget => (stop, at - self.total),
            _ => (0, budget),
        };
        let got = self.core.clone().run(&mut self.memory, budget);
        assert_eq!((got.0, got.1), (answer, used));
        self.core = got.2;
        self.total += used;
        self.answered = answer;
        self.compare();
    }

    /// The stop total doesn't enter: a settle finds none.
    fn settle(&mut self) {
        let distance = self.history.distance(self.total);
        let used = if self.answered != 0 { 0 } else { distance };
        let got = self.core.clone().settle(&mut self.memory);
        assert_eq!((got.0, got.1), (self.answered, used));
        self.core = got.2;
        self.total += used;
        self.compare();
        assert_eq!(self.core.phase, Phase::Step(1));
    }

    /// On memory of another length than the start's, by which neither call changes anything.
    fn refused(&mut self, budget: u64) {
        let mut other = self.memory.clone();
        other.extend([0xFF; 4]);
        let before = other.clone();
        let same = |answer| (answer, 0, self.core.clone());
        assert_eq!(self.core.clone().settle(&mut other), same(12));
        assert_eq!(self.core.clone().run(&mut other, budget), same(12));
        assert_eq!(other, before);
    }

    fn compare(&self) {
        let core = &self.core;
        assert_eq!(core.cycles, self.total);
        assert_eq!(core.stop, self.answered);
        assert_eq!(core.length as usize, self.memory.len());
        let k = self.history.retired(self.total);
        assert_eq!(core.retired, k);
        let distance = self.history.distance(self.total);
        assert!(distance <= 19);
        assert_eq!(core.phase == Phase::Step(1), distance == 0);
        self.compare_slot_sums(k, distance);
        let (plain, memory) = &self.history.states[k as usize];
        if distance == 0 {
            self.compare_boundary(plain, memory);
        } else if self.total > 2 {
            self.compare_inside(plain, memory, distance);
        }
    }

    /// In the middle of an instruction they are those of the boundary before it, of a start none.
    fn compare_slot_sums(&self, k: u64, distance: u64) {
        let sums = self.core.sums;
        if self.total < 2 {
            assert_eq!(sums, Sums::default());
        } else {
            assert_eq!(sums, self.history.slot_sums[k as usize]);
        }
        let together = sums.n + sums.s + sums.i;
        if distance == 0 {
            assert_eq!(together, self.total);
        } else if self.total > 0 {
            assert!(together < self.total);
        }
    }

    fn compare_boundary(&self, plain: &Plain, memory: &[u8]) {
        let core = &self.core;
        let ahead = |bytes: u32| plain.a.wrapping_add(bytes) & 0x03FF_FFFF;
        assert_eq!((core.r, core.flags), (plain.r, plain.flags));
        assert_eq!(core.pc, ahead(8));
        assert_eq!(self.memory, memory);
        assert_eq!(core.ix, words::fetch(memory, plain.a));
        assert_eq!(core.ir2, core.ix);
        assert_eq!(core.ir1, words::fetch(memory, ahead(4)));
        assert_eq!((core.address, core.data, core.base), (0, 0, 0));
    }

    /// In the middle of the instruction that the plain machine is about to do.
    fn compare_inside(&self, plain: &Plain, memory: &[u8], distance: u64) {
        let core = &self.core;
        let ahead = |bytes: u32| plain.a.wrapping_add(bytes) & 0x03FF_FFFF;
        assert_eq!(core.ix, words::fetch(memory, plain.a));
        match core.phase {
            Phase::Step(_) => {
                assert_eq!(core.pc, ahead(12));
                assert_eq!(core.ir2, words::fetch(memory, ahead(4)));
                assert_eq!(core.ir1, words::fetch(memory, ahead(8)));
            }
            Phase::Refill1 | Phase::Refill2 => {
                let (next, _) = &self.history.states[core.retired as usize + 1];
                let behind = if core.phase == Phase::Refill1 { 0 } else { 4 };
                assert_eq!(core.pc, next.a.wrapping_add(behind) & 0x03FF_FFFF);
                assert_eq!((core.r, core.flags), (next.r, next.flags));
                assert_eq!(distance, if behind == 0 { 2 } else { 1 });
                assert_eq!((core.address, core.data, core.base), (0, 0, 0));
            }
        }
    }
}

/// One cycle at a time, then random splits, then all at once: every way the same.
fn follow(program: &Program, limit: u64, random: &mut Random) {
    let history = History::of(program, limit);
    let mut one_by_one = Follower::new(program, &history);
    let mut cores = vec![(one_by_one.core.clone(), one_by_one.memory.clone())];
    while one_by_one.total < limit {
        one_by_one.run(0);
        one_by_one.run(1);
        if one_by_one.answered != 0 {
            break;
        }
        cores.push((one_by_one.core.clone(), one_by_one.memory.clone()));
    }
    for _ in 0..3 {
        let mut split = Follower::new(program, &history);
        let most = random.pick(&[3, 8, 30, limit as u32 + 1]);
        while split.total < limit && split.answered == 0 {
            let left = limit - split.total;
            split.run(u64::from(random.below(most)).min(left));
            let (core, memory) = &cores[split.total as usize];
            let mut core = core.clone();
            core.stop = split.answered;
            assert_eq!((&split.core, &split.memory), (&core, memory));
        }
        if split.answered != 0 {
            split.run(0);
            split.run(5);
            split.run(1_000_000);
        }
    }
    let mut whole = Follower::new(program, &history);
    whole.run(limit);
    assert_eq!(whole.core, one_by_one.core);
    assert_eq!(whole.memory, one_by_one.memory);
}

/// Lists that mix runs and settles: half of the calls are settles, or one in ten. The total is that of
/// both, by which each comes to what single cycles come to.
fn follow_mixed(program: &Program, limit: u64, random: &mut Random, seen: &mut Mixed) {
    // A settle may go past the limit.
    let history = History::of(program, limit + 20);
    let mut one_by_one = Follower::new(program, &history);
    let mut cores = vec![(one_by_one.core.clone(), one_by_one.memory.clone())];
    while one_by_one.total < limit + 20 && one_by_one.answered == 0 {
        one_by_one.run(1);
        cores.push((one_by_one.core.clone(), one_by_one.memory.clone()));
    }
    for (settles, most) in [(5, 3), (5, 12), (1, 40), (5, limit as u32 + 1)] {
        let mut mixed = Follower::new(program, &history);
        while mixed.total < limit && mixed.answered == 0 {
            let left = limit - mixed.total;
            if random.chance(1, 20) {
                mixed.refused(left);
            }
            if random.chance(settles, 10) {
                seen.look(&mixed);
                mixed.settle();
            } else {
                mixed.run(u64::from(random.below(most)).min(left));
            }
            let (core, memory) = &cores[mixed.total as usize];
            let mut core = core.clone();
            core.stop = mixed.answered;
            assert_eq!((&mixed.core, &mixed.memory), (&core, memory));
        }
        if mixed.answered != 0 {
            seen.held += 1;
            mixed.settle();
            mixed.run(5);
            mixed.settle();
        }
    }
}

/// What the settles of these lists came to.
#[derive(Default, Debug)]
struct Mixed {
    distances: [u64; 20],
    /// In a start's refill, on a boundary that meets a stop, before one, and after a stop.
    starts: u64,
    on_stops: u64,
    before_stops: u64,
    held: u64,
}

impl Mixed {
    fn look(&mut self, mixed: &Follower) {
        let distance = mixed.history.distance(mixed.total);
        self.distances[distance as usize] += 1;
        self.starts += u64::from(mixed.total < 2);
        if let Some((_, at)) = mixed.history.stop_total() {
            self.on_stops += u64::from(mixed.total == at);
            self.before_stops += u64::from(distance > 0 && mixed.total + distance == at);
        }
    }
}

#[test]
fn mixed_lists() {
    let mut random = Random::new(12);
    let mut seen = Mixed::default();
    for turn in 0..3000 {
        let words = random.pick(&[4, 5, 8, 16, 32, 64, 100]);
        let program = match turn % 4 {
            0 => program(&mut random, words),
            1 => noise(&mut random, words),
            _ => lively(&mut random, words, 120),
        };
        let limit = 1 + u64::from(random.below(200));
        follow_mixed(&program, limit, &mut random, &mut seen);
    }
    println!("{seen:?}");
    let often = |count: &u64| *count > 100;
    assert!(seen.distances[..=16].iter().all(often), "{seen:?}");
    let others = [seen.starts, seen.on_stops, seen.before_stops, seen.held];
    assert!(others.iter().all(often), "{seen:?}");
}

/// A settle after every number of cycles, and then after each one more.
#[test]
fn a_settle_after_every_budget() {
    let code = [
        block(LOAD | UP, 0, 0xFFFF),
        mov(0, number(0)),
        str(2, 0, 0x60),
        mlas(3, 2, 2, 3),
        op(ADD, 4, 4, by_register(2, Shift::Lsl, 0)),
        branch(-1),
        on(NEVER, SWI),
        block(STORE | UP | W, 0, 0x1FF0),
    ];
    let mut program = image(&code, 0x90);
    program.r[0] = 0x50;
    // R2 gives the multiply an m of 15, and R15 goes on behind the load.
    program.words[0x50 / 4 + 2] = 0x1FFF_FFFF;
    program.words[0x50 / 4 + 15] = 4;
    let history = History::of(&program, 120);
    assert_eq!(history.distance(3), 19);
    let (stop, end) = history.stop_total().unwrap();
    assert_eq!(stop, 25);
    for first in 0..=end {
        for second in 0..=20 {
            let mut list = Follower::new(&program, &history);
            list.run(first);
            list.settle();
            list.run(second);
            list.settle();
            list.settle();
            list.run(200);
            assert_eq!(list.answered, 25);
            list.settle();
        }
    }
}

/// What the random programs came to, so that the comparison isn't empty.
#[derive(Default, Debug)]
struct Seen {
    classes: [u64; 5],
    failed: u64,
    stops: [u64; 5],
    unstopped: u64,
    stored_counters: u64,
    long_blocks: u64,
    /// Multiplies by their m, less 1, and programs that end at one that meets 23.
    multiplies: [u64; 16],
    forbidden_multiplies: u64,
}

impl Seen {
    fn look(&mut self, program: &Program, limit: u64) {
        let history = History::of(program, limit);
        match history.stop {
            Some(stop) => self.stops[stop as usize - 21] += 1,
            None => self.unstopped += 1,
        }
        if history.stop == Some(23) {
            let (plain, memory) = history.states.last().unwrap();
            let instruction = decode(words::word(memory, plain.a));
            assert!(forbidden(&instruction));
            let multiplies = matches!(instruction, Instruction::Multiply(_));
            self.forbidden_multiplies += u64::from(multiplies);
        }
        for pair in history.states.windows(2) {
            let ((plain, memory), (next, _)) = (&pair[0], &pair[1]);
            let word = words::word(memory, plain.a);
            if !passes(word >> 28, plain.flags) {
                self.failed += 1;
                continue;
            }
            match decode(word) {
                Instruction::Processing(_) => self.classes[0] += 1,
                Instruction::Single(_) => self.classes[1] += 1,
                Instruction::Block(it) => {
                    self.classes[2] += 1;
                    self.long_blocks += u64::from(it.list.count_ones() > 8);
                }
                Instruction::Branch(_) => self.classes[3] += 1,
                Instruction::Multiply(it) => {
                    self.classes[4] += 1;
                    self.multiplies[cycles_by_rs(plain.r[it.rs]) as usize - 1] += 1;
                }
                Instruction::Other => panic!(),
            }
            self.stored_counters += u64::from(next.a != plain.a + 4);
        }
    }
}

#[test]
fn random_programs() {
    let mut random = Random::new(3);
    let mut seen = Seen::default();
    for turn in 0..4000 {
        let words = random.pick(&[4, 5, 8, 16, 32, 64, 100]);
        let program = match turn % 4 {
            0 => program(&mut random, words),
            1 => noise(&mut random, words),
            _ => lively(&mut random, words, 120),
        };
        let limit = 1 + u64::from(random.below(300));
        follow(&program, limit, &mut random);
        seen.look(&program, limit);
    }
    println!("{seen:?}");
    assert!(seen.classes.iter().all(|&count| count > 2000), "{seen:?}");
    assert!(seen.stops.iter().all(|&count| count > 20), "{seen:?}");
    assert!(seen.failed > 2000 && seen.unstopped > 500, "{seen:?}");
    assert!(
        seen.stored_counters > 2000 && seen.long_blocks > 100,
        "{seen:?}"
    );
    assert!(seen.multiplies.iter().all(|&count| count > 50), "{seen:?}");
    assert!(seen.forbidden_multiplies > 20, "{seen:?}");
}

fn image(words: &[u32], length: usize) -> Program {
    let memory = memory(length, words);
    Program {
        words: memory
            .chunks(4)
            .map(|it| u32::from_le_bytes(it.try_into().unwrap()))
            .collect(),
        r: [0; 15],
        flags: 0,
        entry: 0,
    }
}

#[test]
fn the_farthest_boundary_is_19_away() {
    let mut full = image(&[block(LOAD | UP, 0, 0xFFFF)], 128);
    full.r[0] = 0x40;
    let history = History::of(&full, 40);
    assert_eq!(history.sums[1], 22);
    assert_eq!(history.distance(3), 19);
    follow(&full, 40, &mut Random::new(4));
}

#[test]
fn every_multiply_by_every_split() {
    for (m, rs) in (1..=16).flat_map(|m| ends(m).map(|rs| (m, rs))) {
        // Rd is Rs in the second, so that the third has another m.
        let code = [mla(4, 1, 2, 3), muls(2, 1, 2), mlas(3, 1, 2, 3), SWI];
        let mut program = image(&code, 64);
        (program.r[1], program.r[2]) = (0x0101_0107, rs);
        let limit = 70;
        let history = History::of(&program, limit);
        assert_eq!(history.sums[..3], [2, 3 + m, 4 + 2 * m].map(u64::from));
        assert_eq!(history.distance(3), u64::from(m));
        follow(&program, limit, &mut Random::new(11));
        let end = history.stop_total().unwrap().1;
        for first in 0..=end {
            for second in 0..=end - first {
                let mut split = Follower::new(&program, &history);
                split.run(first);
                split.run(second);
                split.run(limit - first - second);
                assert_eq!(split.answered, 22);
            }
        }
    }
}

#[test]
fn a_loop_over_the_wrap_of_the_counter() {
    // To 03FFFFFC: there is no word, though the refill also fetches the word at 0.
    let wrap = image(&[op(MVN, 15, 0, number(3))], 16);
    let history = History::of(&wrap, 40);
    assert_eq!(history.stop_total(), Some((21, 5)));
    follow(&wrap, 40, &mut Random::new(5));
}

#[test]
fn a_million_cycles() {
    let endless = image(&[ops(ADD, 0, 0, number(1)), branch_to(4, 0)], 64);
    let mut lent = endless.memory();
    let (_, core) = Core::start(endless.r, 0, 0, &lent);
    let (answer, used, core) = core.run(&mut lent, 1_000_000);
    assert_eq!((answer, used, core.cycles), (0, 1_000_000, 1_000_000));
    // 999,998 cycles after the start's refill are 249,999 rounds of 4 and two cycles more.
    assert_eq!((core.r[0], core.retired), (250_000, 2 * 249_999 + 1));
    // A round is 3S+N; the sum after the last one is in, the branch under way isn't.
    let rounds = 249_999;
    assert_eq!(core.sums.n, 1 + rounds);
    assert_eq!((core.sums.s, core.sums.i), (1 + 3 * rounds + 1, 0));
}

#[test]
fn the_last_store_is_fetched_afterwards() {
    // Puts MOV R3,#7 at A+12, which was SWI.
    let program = image(
        &[
            ldr(0, 1, 24),
            str(0, 1, 16),
            mov(2, number(1)),
            mov(2, number(2)),
            SWI,
        ],
        64,
    );
    let mut program = program;
    program.words[6] = mov(3, number(7));
    program.words[5] = SWI;
    let history = History::of(&program, 60);
    assert_eq!(history.stop, Some(22));
    assert_eq!(history.states.last().unwrap().0.r[3], 7);
    follow(&program, 60, &mut Random::new(6));
}
