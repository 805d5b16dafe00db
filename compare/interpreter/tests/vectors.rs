//! The vectors keep to their format, cover what they should and hold on the pipeline as well.

mod common;

use common::memory;
use interpreter::arm::{decode, forbidden, passes, Block, Instruction};
use interpreter::memory::fetch;
use interpreter::pipeline::{Core, Phase};
use interpreter::plain::Plain;
use interpreter::vectors::{cases, expected, input, read, Case};
use interpreter::walk::{walk, Walk};
use std::collections::BTreeMap;

#[test]
fn the_format() {
    let cases = cases();
    assert!(cases.iter().all(Case::is_proper));
    assert!((800..=1_100).contains(&cases.len()), "{}", cases.len());
    for text in [input(&cases), expected(&cases)] {
        assert!(text.len() < 450_000, "{}", text.len());
        assert_eq!(text.lines().count(), cases.len());
        assert!(text.ends_with('\n'));
        for (index, byte) in text.bytes().enumerate() {
            match index % 9 {
                8 => assert!(byte == b' ' || byte == b'\n'),
                _ => assert!(byte.is_ascii_digit() || (b'A'..=b'F').contains(&byte)),
            }
        }
    }
}

#[test]
fn the_same_every_time() {
    let (one, two) = (cases(), cases());
    assert_eq!(one, two);
    assert_eq!(expected(&one), expected(&two));
}

#[test]
fn the_text_can_be_read_back() {
    let cases = cases();
    let text = input(&cases);
    let again = read(&text);
    assert_eq!(again.len(), cases.len());
    assert_eq!(input(&again), text);
    assert_eq!(expected(&again), expected(&cases));
}

#[test]
fn every_answer_comes_up() {
    let (mut starts, mut runs) = (BTreeMap::new(), BTreeMap::new());
    for case in cases() {
        let (start, answer, ..) = case.outcome();
        *starts.entry(start).or_insert(0) += 1;
        *runs.entry((case.mode, answer)).or_insert(0) += 1;
    }
    println!("starts {starts:?}, runs {runs:?}");
    for start in [0, 1, 2, 4] {
        assert!(starts[&start] > 3);
    }
    for answer in [0, 3, 11, 12, 21, 22, 23, 24, 25] {
        assert!(runs[&(1, answer)] > 1, "{answer}");
    }
    for answer in [0, 3, 11, 12, 21, 22, 23, 24, 25] {
        assert!(runs[&(0, answer)] > 1, "{answer}");
    }
}

/// What a topic says to stop with 22 or 23 does, and no multiply does that it doesn't say so of.
#[test]
fn the_topics() {
    let (mut others, mut forbidden, mut multiplies) = (0, 0, 0);
    for case in cases() {
        let (_, answer, ..) = case.outcome();
        if case.topic.starts_with("22 ") {
            assert_eq!(answer, 22, "{}", case.topic);
            others += 1;
        } else if case.topic.starts_with("23 ") {
            assert_eq!(answer, 23, "{}", case.topic);
            forbidden += 1;
        } else if case.topic.contains("multiplies") {
            assert_eq!(answer, 0, "{}", case.topic);
            multiplies += 1;
        }
    }
    assert!(others > 20 && forbidden > 30 && multiplies > 30);
}

/// Where a start is accepted and run on its own memory, the pipeline comes to the same.
#[test]
fn the_pipeline_agrees() {
    let mut compared = 0;
    for case in cases() {
        let (start, answer, done, plain, buffer) = case.outcome();
        let ran = answer == 0 || answer > 20;
        if case.mode != 0 || start != 0 || !ran {
            continue;
        }
        let mut lent = memory(case.length as usize, &case.words);
        let (_, mut core) = Core::start(case.r, case.flags, case.entry, &lent);
        while core.retired < done || core.phase != Phase::Step(1) {
            let before = core.cycles;
            core = core.run(&mut lent, 1).2;
            assert_eq!(core.cycles, before + 1, "{}", case.topic);
        }
        if answer != 0 {
            let (stop, used, stopped) = core.run(&mut lent, 1);
            assert_eq!((stop, used), (answer, 0), "{}", case.topic);
            core = stopped;
        }
        assert_eq!(core.retired, done, "{}", case.topic);
        assert_eq!(
            (core.r, core.flags, core.stop),
            (plain.r, plain.flags, plain.stop)
        );
        assert_eq!(
            core.pc.wrapping_sub(8) & 0x03FF_FFFF,
            plain.a,
            "{}",
            case.topic
        );
        assert_eq!(lent, buffer[..case.length as usize], "{}", case.topic);
        compared += 1;
    }
    assert!(compared > 500, "{compared}");
}

/// What a case left: the record, the memory lent, and the walk that its expected line gives.
struct Left {
    case: Case,
    answer: u32,
    plain: Plain,
    memory: Vec<u8>,
    walk: Walk,
}

impl Left {
    /// The word due, if it is a block that breaks no rule and its record is on its own memory.
    fn block(&self) -> Option<(u32, Block)> {
        if self.memory.len() as u64 != u64::from(self.plain.length) {
            return None;
        }
        let word = fetch(&self.memory, self.plain.a)?;
        match decode(word) {
            it @ Instruction::Block(block) if !forbidden(&it) => Some((word, block)),
            _ => None,
        }
    }
}

fn left() -> Vec<Left> {
    let of = |case: Case| {
        let (_, answer, _, plain, mut memory) = case.outcome();
        memory.truncate(case.lent as usize);
        let tokens = case.expected();
        let [stop, looked] = [tokens[22], tokens[23]];
        let walk = Walk { stop, looked };
        Left {
            case,
            answer,
            plain,
            memory,
            walk,
        }
    };
    cases().into_iter().map(of).collect()
}

/// Behind the registers stands the walk of the block due, or of none; behind it the words.
#[test]
fn the_walk_in_the_line() {
    for it in left() {
        let tokens = it.case.expected();
        let words = it.case.length.min(256) / 4;
        assert_eq!(tokens.len() as u32, 7 + 15 + 2 + words, "{}", it.case.topic);
        assert_eq!(tokens[7..22], it.plain.r);
        let wanted = match it.block() {
            Some((_, block)) => walk(&block, &it.plain.r, it.plain.a, it.plain.length),
            None => Walk::default(),
        };
        assert_eq!(it.walk, wanted, "{}", it.case.topic);
    }
}

/// The walks that topics tell of.
#[test]
fn the_topics_of_walks() {
    let mut told = 0;
    for it in left() {
        let Walk { stop, looked } = it.walk;
        if it.case.topic.starts_with("walk ") {
            let wanted = format!("walk {stop} after {looked}, ");
            assert!(it.case.topic.starts_with(&wanted), "{}", it.case.topic);
            told += 1;
        }
    }
    assert!((120..=200).contains(&told), "{told}");
}

/// Each stop of a walk comes up on lists of one register and on longer ones, 24 at their first, last
/// and others, and at each of sixteen and of fifteen registers.
#[test]
fn every_walk_comes_up() {
    let (mut walks, mut places) = (BTreeMap::new(), BTreeMap::new());
    for it in left() {
        let Some((_, block)) = it.block() else {
            continue;
        };
        let Walk { stop, looked } = it.walk;
        let n = block.list.count_ones();
        let place = match looked {
            _ if n == 1 => "alone",
            1 => "first",
            _ if looked == n => "last",
            _ => "between",
        };
        *walks.entry((stop, block.load, place)).or_insert(0) += 1;
        *places.entry((stop, n, looked)).or_insert(0) += 1;
    }
    println!("{walks:?}");
    for load in [false, true] {
        for place in ["alone", "first", "between", "last"] {
            assert!(walks[&(24, load, place)] > 1, "{place}");
        }
        for place in ["alone", "last"] {
            assert!(walks[&(0, load, place)] > 1, "{place}");
            let fetched = walks.get(&(25, load, place)).unwrap_or(&0);
            assert_eq!(*fetched > 1, !load, "{place}");
        }
    }
    // All registers were looked at, if it wasn't 24.
    assert!(walks
        .keys()
        .all(|&(stop, _, place)| stop == 24 || place == "alone" || place == "last"));
    for n in [15, 16] {
        assert!((1..=n).all(|looked| places.contains_key(&(24, n, looked))));
        assert!(places.contains_key(&(0, n, n)) && places.contains_key(&(25, 16, 16)));
    }
}

/// A run that stops at a block with 24 or 25 does so with its walk's stop; a stop that the record
/// held may be another. Whatever a run answered, a block due that its condition lets do meets its
/// walk's stop, or none, if it is stepped.
#[test]
fn walks_stop_as_the_machine_does() {
    let (mut found, mut stepped, mut passed) = (0, BTreeMap::new(), 0);
    for mut it in left() {
        let stops = [24, 25].contains(&it.answer) && it.case.stop == 0;
        let Some((word, _)) = it.block() else {
            continue;
        };
        if stops {
            assert_eq!(it.walk.stop, it.answer, "{}", it.case.topic);
            found += 1;
        }
        let passes = passes(word >> 28, it.plain.flags);
        let wanted = if passes { it.walk.stop } else { 0 };
        assert_eq!(it.plain.step(&mut it.memory), wanted, "{}", it.case.topic);
        if passes {
            *stepped.entry(wanted).or_insert(0) += 1;
        } else {
            passed += 1;
        }
    }
    println!("found {found}, stepped {stepped:?}, passed {passed}");
    assert!(found > 100 && passed > 2);
    assert!([0, 24, 25].iter().all(|stop| stepped[stop] > 20));
}
