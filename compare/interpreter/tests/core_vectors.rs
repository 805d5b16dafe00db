//! The core's vectors keep to their format, cover what they should, and hold cycle by cycle.

mod common;

use common::slow;
use common::table::sums;
use interpreter::arm::{cycles_by_rs, decode, passes, Instruction, Operand};
use interpreter::core_vectors::{cases, expected, input, read, Called, Case, BUFFER, RUN, SETTLE};
use interpreter::pipeline::{core_array, core_of, Core, Phase};
use std::collections::{BTreeMap, BTreeSet};
use Phase::{Refill1, Refill2, Step};

#[test]
fn the_format() {
    let cases = cases();
    for case in &cases {
        assert!(case.is_proper(), "{}", case.topic);
    }
    assert!((300..=850).contains(&cases.len()), "{}", cases.len());
    for text in [input(&cases), expected(&cases)] {
        assert!(text.len() < 600_000, "{}", text.len());
        assert_eq!(text.lines().count(), cases.len());
        assert!(text.ends_with('\n'));
        for (index, byte) in text.bytes().enumerate() {
            match index % 9 {
                8 => assert!(byte == b' ' || byte == b'\n'),
                _ => assert!(byte.is_ascii_digit() || (b'A'..=b'F').contains(&byte)),
            }
        }
    }
    let topics: BTreeSet<&str> = cases.iter().map(|case| case.topic.as_str()).collect();
    assert_eq!(topics.len(), cases.len());
}

#[test]
fn the_same_every_time() {
    let (one, two) = (cases(), cases());
    assert_eq!(one, two);
    assert_eq!(expected(&one), expected(&two));
}

#[test]
fn the_text_can_be_read_back() {
    let cases = cases();
    let text = input(&cases);
    let again = read(&text);
    assert_eq!(again.len(), cases.len());
    assert_eq!(input(&again), text);
    assert_eq!(expected(&again), expected(&cases));
}

fn called() -> Vec<Called> {
    cases().iter().flat_map(|it| it.outcome().called).collect()
}

#[test]
fn every_answer_comes_up() {
    let (mut starts, mut calls) = (BTreeMap::new(), BTreeMap::new());
    for case in cases() {
        let outcome = case.outcome();
        *starts.entry(outcome.start).or_insert(0) += 1;
        for it in outcome.called {
            *calls.entry((it.call.kind, it.answer)).or_insert(0) += 1;
        }
    }
    println!("starts {starts:?}, calls {calls:?}");
    for start in [0, 1, 2, 4] {
        assert!(starts[&start] > 0, "{start}");
    }
    for answer in [0, 11, 12, 13, 21, 22, 23, 24, 25] {
        assert!(calls[&(SETTLE, answer)] > 9, "{answer}");
        assert!(calls[&(RUN, answer)] > 9, "{answer}");
    }
    assert!(calls[&(RUN, 3)] > 1);
    assert!(!calls.contains_key(&(SETTLE, 3)));
}

/// What an instruction under way is, as far as its steps go: its name, the n or m, and whether it
/// stores the counter.
type Kind = (&'static str, u32, bool);

fn kind(core: &Core) -> Kind {
    let Some(word) = core.ix else {
        return ("start", 0, false);
    };
    match decode(word) {
        Instruction::Processing(it) => {
            let stores = it.rd == 15 && !it.only_compares();
            match it.operand {
                Operand::ByRegister { .. } => ("shift by register", 0, stores),
                _ => ("processing", 0, stores),
            }
        }
        Instruction::Single(it) if it.load => ("load", 0, it.rd == 15),
        Instruction::Single(_) => ("store", 0, false),
        Instruction::Block(it) if it.load => {
            let stores = it.list >> 15 == 1;
            ("block load", it.list.count_ones(), stores)
        }
        Instruction::Block(it) => ("block store", it.list.count_ones(), false),
        Instruction::Branch(_) => ("branch", 0, true),
        // A forbidden one's Rs may be R15.
        Instruction::Multiply(it) => {
            let m = core.r.get(it.rs).map_or(0, |&rs| cycles_by_rs(rs));
            ("multiply", m, false)
        }
        Instruction::Other => ("other", 0, false),
    }
}

/// Every kind with the last of its own steps.
fn kinds() -> Vec<(Kind, u32)> {
    let mut kinds = vec![
        (("start", 0, true), 1),
        (("processing", 0, true), 1),
        (("shift by register", 0, false), 2),
        (("shift by register", 0, true), 2),
        (("load", 0, false), 3),
        (("load", 0, true), 3),
        (("store", 0, false), 2),
        (("branch", 0, true), 1),
    ];
    for n in 1..=16 {
        kinds.push((("multiply", n, false), n + 1));
        kinds.push((("block store", n, false), n + 1));
        kinds.push((("block load", n, true), n + 2));
        if n < 16 {
            kinds.push((("block load", n, false), n + 2));
        }
    }
    kinds
}

/// Of starts alone, so that no record is a tampered one.
#[test]
fn a_settle_begins_in_each_phase_of_each_class() {
    let mut seen = BTreeSet::new();
    for case in cases().iter().filter(|case| case.mode == 0) {
        for it in case.outcome().called {
            if it.call.kind == SETTLE && it.answer == 0 {
                seen.insert(format!("{:?} {:?}", kind(&it.before), it.before.phase));
            }
        }
    }
    for ((name, count, stores), last) in kinds() {
        let has = |phase: Phase| {
            // A start's refills are not an instruction's.
            let kind = (name, count, stores && name != "start");
            let wanted = format!("{kind:?} {phase:?}");
            assert!(seen.contains(&wanted), "{wanted}");
        };
        (2..=last).map(Step).for_each(has);
        if stores {
            has(Refill1);
            has(Refill2);
        }
    }
    let boundaries = seen.iter().filter(|it| it.ends_with("Step(1)"));
    assert!(boundaries.count() > 20);
}

/// Conditions that fail are settled too, at the boundary before them and at the one behind.
#[test]
fn failed_conditions() {
    let failed = |it: &Called| {
        let word = it.before.ix.unwrap_or(0);
        it.call.kind == SETTLE && it.answer == 0 && !passes(word >> 28, it.before.flags)
    };
    assert!(called().iter().filter(|it| failed(it)).count() > 10);
}

/// The cores after each cycle of a start, as far as the case goes and one more.
fn cycles_of(case: &Case) -> Vec<Core> {
    let mut lent = vec![0; case.length as usize];
    for (place, word) in lent.chunks_exact_mut(4).zip(&case.words) {
        place.copy_from_slice(&word.to_le_bytes());
    }
    let r = case.core[..15].try_into().unwrap();
    let mut cores = vec![Core::start(r, case.core[16], case.core[15], &lent).1];
    for _ in 0..=case.outcome().core.cycles {
        let next = cores.last().unwrap().clone().cycle(&mut lent);
        if next.stop != 0 {
            break;
        }
        cores.push(next);
    }
    cores
}

/// Cases end a cycle before the retirement of each row of the table of ticks, at it and a cycle behind
/// it; conditions that fail in each class come up anywhere in them.
#[test]
fn cases_end_about_each_retirement() {
    let (mut about, mut failed) = (BTreeSet::new(), BTreeSet::new());
    let started = |case: &&Case| case.mode == 0 && case.outcome().start == 0;
    for case in cases().iter().filter(started) {
        let end = case.outcome().core.cycles;
        let cores = cycles_of(case);
        for pair in cores.windows(2).filter(|pair| pair[1].phase == Step(1)) {
            let (before, at) = (&pair[0], pair[1].cycles);
            let (name, _, stores) = kind(before);
            let fails = |word: u32| !passes(word >> 28, before.flags);
            if before.phase == Step(1) && before.ix.is_some_and(fails) {
                failed.insert(name);
            } else {
                about.insert((name, stores, end as i64 - at as i64));
            }
        }
    }
    let mut rows: Vec<(&str, bool)> = kinds()
        .iter()
        .map(|&((name, _, stores), _)| (name, stores && name != "start"))
        .collect();
    rows.push(("processing", false));
    for (name, stores) in rows {
        for away in [-1, 0, 1] {
            let wanted = (name, stores, away);
            assert!(about.contains(&wanted), "{wanted:?}");
        }
        assert!(failed.contains(name) || name == "start", "{name}");
    }
    assert!(failed.contains("other"));
}

/// Both calls refuse records for their sums alone and, in either refill, for their word alone.
#[test]
fn refused_for_sums_and_refills() {
    let is_bad = |core: &Core| {
        let mut lent = vec![0; core.length as usize];
        core.clone().run(&mut lent, 0).0 == 11
    };
    let (mut for_sums, mut for_words) = (BTreeMap::new(), BTreeMap::new());
    for it in called().iter().filter(|it| it.answer == 11) {
        let mut mended = it.before.clone();
        mended.sums = sums([0; 3]);
        let place = (it.call.kind, format!("{:?}", mended.phase));
        if !is_bad(&mended) {
            *for_sums.entry(place).or_insert(0) += 1;
        } else if matches!(mended.phase, Refill1 | Refill2) {
            mended.ix = None;
            *for_words.entry(place).or_insert(0) += u32::from(!is_bad(&mended));
        }
    }
    println!("{for_sums:?} {for_words:?}");
    for kind in [RUN, SETTLE] {
        let place = |phase: Phase| (kind, format!("{phase:?}"));
        assert!(for_sums[&place(Step(1))] > 20);
        assert!([Step(2), Refill1]
            .iter()
            .all(|&phase| for_sums[&place(phase)] > 0));
        assert!([Refill1, Refill2]
            .iter()
            .all(|&phase| for_words[&place(phase)] > 10));
    }
}

/// N, S and I stand behind the words that there were before, each its low word first.
#[test]
fn the_array_of_the_sums() {
    let counted = sums([0x2_0000_0001, 0x4_0000_0003, 0x6_0000_0005]);
    let core = Core {
        length: 64,
        retired: 7,
        sums: counted,
        ..Core::zeroed()
    };
    let array = core_array(&core);
    assert_eq!(array[29..], [7, 0, 0, 64, 1, 2, 3, 4, 5, 6]);
    assert_eq!(core_of(&array), Some(core));
}

#[test]
fn each_refusal_in_each_phase() {
    for answer in [11, 12, 13] {
        let mut phases: Vec<String> = called()
            .iter()
            .filter(|it| it.call.kind == SETTLE && it.answer == answer)
            .map(|it| format!("{:?}", it.before.phase))
            .collect();
        phases.sort();
        phases.dedup();
        for phase in [Refill1, Refill2, Step(2), Step(3), Step(4)] {
            assert!(phases.contains(&format!("{phase:?}")), "{answer} {phase:?}");
        }
        assert_eq!(phases.contains(&"Step(1)".to_string()), answer != 13);
    }
}

/// What a topic says of the answer is so.
#[test]
fn the_topics() {
    let mut counts = [0; 6];
    for case in cases() {
        let outcome = case.outcome();
        let settles: Vec<u32> = outcome
            .called
            .iter()
            .filter(|it| it.call.kind == SETTLE)
            .map(|it| it.answer)
            .collect();
        let says = |text: &str| case.topic.contains(text);
        let wanted: Option<(usize, &[u32])> = if says("just to 2^40") {
            Some((0, &[0, 0]))
        } else if says("with 0 to go, just past 2^40") {
            Some((1, &[11, 11]))
        } else if says("just past 2^40") {
            Some((2, &[13, 13]))
        } else if case.topic.starts_with("run") && !says("refused") {
            Some((3, &[]))
        } else if says("settle after") && !says("refused start") {
            Some((4, &[0, 0]))
        } else {
            None
        };
        if let Some((place, answers)) = wanted {
            counts[place] += 1;
            assert_eq!(settles, answers, "{}", case.topic);
        }
        if let Some(text) = case.topic.strip_prefix("settle at stop ") {
            counts[5] += 1;
            let stop = text[..2].parse().unwrap();
            assert_eq!(settles, [0, 0, stop, stop], "{}", case.topic);
        }
    }
    println!("{counts:?}");
    assert!(counts.iter().all(|&count| count > 0), "{counts:?}");
}

/// The case once more, its settles by the table of durations and its runs cycle by cycle.
fn replay(case: &Case) -> (Vec<(u32, u64)>, Core, Vec<u8>) {
    let mut buffer = vec![0; BUFFER];
    for (place, word) in buffer.chunks_exact_mut(4).zip(&case.words) {
        place.copy_from_slice(&word.to_le_bytes());
    }
    let mut core = if case.mode == 1 {
        core_of(&case.core).unwrap()
    } else {
        let r = case.core[..15].try_into().unwrap();
        let lent = &buffer[..case.length as usize];
        Core::start(r, case.core[16], case.core[15], lent).1
    };
    let mut answers = Vec::new();
    for call in &case.calls {
        let lent = &mut buffer[..call.lent as usize];
        let (answer, used, after) = match call.kind {
            RUN => slow::run(core, lent, call.budget.into()),
            _ => slow::settle(&core, lent),
        };
        core = after;
        answers.push((answer, used));
    }
    (answers, core, buffer)
}

#[test]
fn cycle_by_cycle() {
    for case in cases() {
        let outcome = case.outcome();
        let (answers, core, buffer) = replay(&case);
        let called = outcome.called.iter().map(|it| (it.answer, it.used));
        assert_eq!(answers, called.collect::<Vec<_>>(), "{}", case.topic);
        assert_eq!(core, outcome.core, "{}", case.topic);
        assert_eq!(buffer, outcome.buffer, "{}", case.topic);
    }
}
