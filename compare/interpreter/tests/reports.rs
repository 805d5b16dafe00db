//! The report program's cases keep to their format and are what their topics say.

mod common;

use common::table::{added, plus, START};
use interpreter::memory;
use interpreter::pipeline::Phase;
use interpreter::plain::Plain;
use interpreter::reports::{cases, expected, input, Case, BUDGET};

fn topic(name: &str) -> Case {
    let found = cases().into_iter().find(|case| case.topic == name);
    found.unwrap_or_else(|| panic!("no case {name}"))
}

#[test]
fn the_format() {
    let cases = cases();
    assert!(cases.iter().all(Case::is_proper));
    let input = input(&cases);
    assert_eq!(input.lines().count(), cases.len());
    for (index, byte) in input.bytes().enumerate() {
        match index % 9 {
            8 => assert!(byte == b' ' || byte == b'\n'),
            _ => assert!(byte.is_ascii_digit() || (b'A'..=b'F').contains(&byte)),
        }
    }
    let ends = expected(&cases)
        .lines()
        .filter(|&line| line == "--")
        .count();
    assert_eq!(ends, cases.len());
}

#[test]
fn the_papers_sample() {
    let zeros: String = (0..15).map(|name| format!("r{name}=00000000\n")).collect();
    let lines = "answer=22\npc=00000014\ncycles=21\nticks=26\nretired=11\nflags=6\n";
    assert_eq!(
        topic("22 the paper's sample").report(),
        format!("{lines}{zeros}")
    );
}

/// A topic begins with the stop, with `refused` or with `budget`.
#[test]
fn the_answers() {
    for case in cases() {
        let (answer, core) = case.outcome();
        let cycles = core.map(|core| core.cycles);
        let kind = case.topic.split([' ', ':']).next().unwrap();
        match kind {
            "refused" => assert_eq!((answer, cycles), (1, None), "{}", case.topic),
            "budget" => assert_eq!((answer, cycles), (0, Some(BUDGET)), "{}", case.topic),
            stop => {
                assert_eq!(answer.to_string(), stop, "{}", case.topic);
                assert!(cycles < Some(BUDGET), "{}", case.topic);
            }
        }
    }
}

#[test]
fn where_the_budget_ends() {
    let ends = [
        ("block load, 1 of 6", Phase::Step(2)),
        ("block load, 5 of 6", Phase::Step(6)),
        ("block load, 6 of 6", Phase::Step(1)),
        ("block store, 1 of 4", Phase::Step(2)),
        ("block store, 3 of 4", Phase::Step(4)),
        ("load, 1 of 3", Phase::Step(2)),
        ("load, 2 of 3", Phase::Step(3)),
        ("store, 1 of 2", Phase::Step(2)),
        ("shift by register, 1 of 2", Phase::Step(2)),
        ("before refill 1", Phase::Refill1),
        ("before refill 2", Phase::Refill2),
        ("after refill 2", Phase::Step(1)),
        ("spent at a stop", Phase::Step(1)),
        ("load of 7 cycles, 4 of 7", Phase::Step(5)),
        ("load of 7 cycles, 5 of 7", Phase::Refill1),
        ("load of 7 cycles, 6 of 7", Phase::Refill2),
        ("load of 7 cycles, 7 of 7", Phase::Step(1)),
    ];
    for (name, phase) in ends {
        let (_, core) = topic(&format!("budget: {name}")).outcome();
        assert_eq!(core.map(|core| core.phase), Some(phase), "{name}");
    }
}

/// The two loads take three cycles each, the two multiplies one more than m.
#[test]
fn lengths_of_multiplies() {
    let mut seen = 0;
    for case in cases() {
        let Some((_, m)) = case.topic.split_once(", m ") else {
            continue;
        };
        let m: u64 = m.parse().unwrap();
        let (_, core) = case.outcome();
        assert_eq!(core.unwrap().cycles, 2 + 6 + 2 * (1 + m), "{}", case.topic);
        seen += 1;
    }
    assert_eq!(seen, 32);
}

/// Up to the last cycle the registers and flags are the old ones.
#[test]
fn budgets_within_multiplies() {
    for m in [1, 2, 3, 7, 16] {
        let core = |left| {
            let name = format!("budget: multiply, {left} of {}", m + 1);
            topic(&name).outcome().1.expect("an accepted start")
        };
        let first = core(1);
        for left in 1..=m {
            let core = core(left);
            assert_eq!(core.phase, Phase::Step(left + 1));
            assert_eq!((core.r, core.flags), (first.r, 0xF));
        }
        let last = core(m + 1);
        assert_eq!(last.phase, Phase::Step(1));
        assert_ne!(last.r, first.r);
    }
}

/// A start, three words of one cycle, and the N, S and I of the row.
#[test]
fn ticks_of_each_row() {
    let rows = [
        ("MOV", [0, 1, 0]),
        ("TEQ, Rd 15", [0, 1, 0]),
        ("MOV by register", [0, 1, 1]),
        ("CMP by register", [0, 1, 1]),
        ("MOV to R15", [1, 2, 0]),
        ("MOVS to R15 by register", [1, 2, 1]),
        ("load", [1, 1, 1]),
        ("load of a byte", [1, 1, 1]),
        ("load of R15", [2, 2, 1]),
        ("store", [2, 0, 0]),
        ("store of R15", [2, 0, 0]),
        ("block load of 1", [1, 1, 1]),
        ("block load of 15", [1, 15, 1]),
        ("block load of R15", [2, 2, 1]),
        ("block load of 16", [2, 17, 1]),
        ("block store of 1", [2, 0, 0]),
        ("block store of 16", [2, 15, 0]),
        ("branch", [1, 2, 0]),
        ("branch with link", [1, 2, 0]),
        ("MUL", [0, 1, 3]),
        ("MLAS", [0, 1, 4]),
        ("MUL to its Rs", [0, 1, 4]),
        ("MLA to its Rs", [0, 1, 4]),
    ];
    let failed =
        |case: &Case| case.topic.starts_with("22 ticks, ") && case.topic.ends_with(" failed");
    let failed: Vec<Case> = cases().into_iter().filter(failed).collect();
    assert_eq!(failed.len(), 7);
    let rows = rows.map(|(name, row)| (topic(&format!("22 ticks, {name}")), row));
    let failed = failed.into_iter().map(|case| (case, [0, 1, 0]));
    for (case, [n, s, i]) in rows.into_iter().chain(failed) {
        let cycles = 5 + n + s + i;
        let ticks = 6 + 2 * n + s + i;
        let lines = format!("\ncycles={cycles}\nticks={ticks}\nretired=4\n");
        assert!(case.report().contains(&lines), "{}", case.report());
    }
}

/// What the instruction under way comes to isn't in the ticks, nor is one that stops.
#[test]
fn ticks_by_the_plain_machine() {
    let (mut midway, mut boundaries, mut stopped) = (0, 0, 0);
    for case in cases() {
        let (answer, Some(core)) = case.outcome() else {
            continue;
        };
        let mut image = case.image();
        let (_, mut plain) = Plain::start([0; 15], 0, 0, &image);
        let mut sums = START;
        for _ in 0..core.retired {
            let word = memory::word(&image, plain.a);
            sums = plus(sums, added(word, plain.flags, &plain.r));
            assert_eq!(plain.step(&mut image), 0, "{}", case.topic);
        }
        assert_eq!(core.sums, sums, "{}", case.topic);
        let line = format!("\nticks={}\n", 2 * sums.n + sums.s + sums.i);
        assert!(case.report().contains(&line), "{}", case.topic);
        let together = sums.n + sums.s + sums.i;
        if core.phase != Phase::Step(1) {
            midway += 1;
            assert!(together < BUDGET, "{}", case.topic);
        } else {
            assert_eq!(together, core.cycles, "{}", case.topic);
            boundaries += 1;
            stopped += u64::from(answer != 0);
        }
    }
    assert!(
        midway > 20 && boundaries > 20 && stopped > 20,
        "{midway} {boundaries} {stopped}"
    );
}

/// A cycle on, the stop that was not yet found is.
#[test]
fn a_stop_not_yet_found() {
    for (name, stop) in [
        ("spent at a stop", 22),
        ("spent at a stop, by a load", 22),
        ("spent at a stop, by a multiply", 22),
        ("spent past the end", 21),
    ] {
        let case = topic(&format!("budget: {name}"));
        let (_, core) = case.outcome();
        let (answer, used, _) = core.expect("an accepted start").run(&mut case.image(), 1);
        assert_eq!((answer, used), (stop, 0), "{name}");
    }
}
