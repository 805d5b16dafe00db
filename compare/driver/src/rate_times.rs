//! Times runs that watch a window against the product's unwatched ones.

use crate::archive::{core_run, core_start, CoreArray};
use crate::images;
use crate::rate_archive::{rate_run, SummaryArray};
use interpreter::programs::Program;
use std::hint::black_box;
use std::time::{Duration, Instant};

/// The most that a call takes.
const CALL: u64 = 1_000_000;

const CYCLES: u64 = 2 * CALL;

/// A watched run takes at most so many times as long.
const PROMISED: f64 = 4.0;

/// All images, and the window that is watched: the sender's link, and else the whole memory, so
/// that every store is folded.
fn watched() -> impl Iterator<Item = (&'static str, [u32; 2])> {
    let whole = images::NAMES.into_iter().map(|name| (name, [0, 4096]));
    whole.chain([(images::SENDER, [images::LINK, images::LINK + 4])])
}

/// The best of so many rounds, in each of which both kinds of run have their turn.
pub fn table(rounds: u32) {
    println!(
        "ns per simulated cycle of the product's core by calls of {CALL}, \
         best of {rounds} rounds in turn"
    );
    println!(
        "{:<12}{:>12}{:>12}{:>12}{:>16}{:>20}",
        "image", "unwatched", "watched", "ratio", "window", "cycles per store"
    );
    let mut worst = 0.0f64;
    for (name, window) in watched() {
        let program = images::image(name).expect("an image");
        let mut best = [Duration::MAX; 2];
        let mut stores = 0;
        for _ in 0..rounds {
            let (plain, _) = timed(&program, CYCLES, None);
            let (watched, summary) = timed(&program, CYCLES, Some(window));
            best = [best[0].min(plain), best[1].min(watched)];
            stores = summary[0];
        }
        let [plain, watched] = best.map(|it| it.as_secs_f64() * 1e9 / CYCLES as f64);
        worst = worst.max(watched / plain);
        let [from, to] = window;
        let apart = match stores {
            0 => "no store".to_string(),
            _ => format!("{:.1}", CYCLES as f64 / f64::from(stores)),
        };
        println!(
            "{name:<12}{plain:>12.2}{watched:>12.2}{:>12.2}{:>16}{apart:>20}",
            watched / plain,
            format!("{from:X}-{to:X}")
        );
    }
    let verdict = if worst <= PROMISED {
        "kept"
    } else {
        "NOT KEPT"
    };
    println!(
        "at most {PROMISED} times an unwatched run is promised: {verdict}, {worst:.2} at most"
    );
}

/// Runs so many cycles, watched or not: the time it took, and the summary.
fn timed(program: &Program, cycles: u64, window: Option<[u32; 2]>) -> (Duration, SummaryArray) {
    let mut memory = program.memory();
    let (_, mut core) = core_start(&program.r, program.flags, program.entry, &memory);
    let mut summary = [0; 22];
    let began = Instant::now();
    let mut left = cycles;
    while left > 0 {
        let budget = left.min(CALL);
        let came = advance(&mut core, &mut memory, budget, window, &mut summary);
        assert_eq!(came, (0, budget), "the image stopped");
        left -= budget;
    }
    let took = began.elapsed();
    black_box((core, memory));
    (took, summary)
}

fn advance(
    core: &mut CoreArray,
    memory: &mut [u8],
    budget: u64,
    window: Option<[u32; 2]>,
    summary: &mut SummaryArray,
) -> (u32, u64) {
    match window {
        Some(window) => rate_run(core, memory, budget, window, summary),
        None => core_run(core, memory, budget),
    }
}

/// One watched run of an image, for a counter of instructions: how many stores it folded.
pub fn counted(name: &str, cycles: u64) -> Option<u64> {
    let (_, window) = watched().find(|it| it.0 == name)?;
    let program = images::image(name).expect("an image");
    let (_, summary) = timed(&program, cycles, Some(window));
    Some(u64::from(summary[0]) | u64::from(summary[1]) << 32)
}
