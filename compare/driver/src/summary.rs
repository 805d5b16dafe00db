//! The last lines, for somebody who has not read the code.

use crate::arguments::Asked;
use crate::comparison::{Comparison, Place};
use crate::counts::{Counts, Machines, Settles, Words, Writes, LONG};
use crate::figures::grouped;
use crate::hex_summary;
use crate::rate_summary;

/// What the answers mean, of all calls together.
const ANSWERS: [(usize, &str); 14] = [
    (0, "done: started, budget spent, settled, or word written"),
    (1, "start refused: bad length of the memory"),
    (2, "start refused: bad entry"),
    (3, "run refused: a budget above 1,000,000"),
    (4, "start refused: bad flags"),
    (5, "write refused: no word for this record"),
    (11, "run or settle refused: a bad record"),
    (12, "run or settle refused: memory of another length"),
    (13, "run or settle refused: it could go past 2^40 cycles"),
    (21, "stop: no word at A"),
    (22, "stop: not an instruction of this core, or a SWI"),
    (23, "stop: a forbidden form"),
    (24, "stop: an address outside the memory"),
    (25, "stop: a store to a word already fetched"),
];

pub fn show(comparison: &Comparison) -> String {
    let counts = &comparison.counts;
    let asked = comparison.asked;
    let mut sections = vec![format!("What compare/run {asked} compared.")];
    if counts.core.starts > 0 {
        sections.extend(of_machines(counts));
    }
    if counts.rates.runs > 0 {
        sections.push(rate_summary::show(&counts.rates));
    }
    if counts.hex.texts() > 0 {
        sections.push(hex_summary::show(&counts.hex));
    }
    if comparison.firsts.len() > 1 {
        sections.push(firsts(comparison));
    }
    sections.push(verdict(comparison));
    format!("\n{}", sections.join("\n\n"))
}

/// Of the core, the plain machine and words.
fn of_machines(counts: &Counts) -> Vec<String> {
    let held = "After every call product and interpreter were held to each other: the answer, the cycles or\n\
                instructions used, every word of the record, and the memory.";
    let mut sections = vec![held.to_string(), machines(&counts.core, &counts.plain)];
    if counts.words.words > 0 {
        sections.push(words(&counts.words));
    }
    sections.push(answers(counts));
    sections.push(phases(&counts.core.phases));
    sections.push(multiplies(&counts.core.multiplies));
    sections.push(settles(&counts.core.settles));
    if counts.writes.images > 0 {
        sections.push(rewritten(&counts.writes));
    }
    sections
}

fn machines(core: &Machines, plain: &Machines) -> String {
    let row = |name, of: fn(&Machines) -> u64| (name, of(core), of(plain));
    let rows = [
        row("images, counted for each way to run them", |of| of.images),
        row("starts", |of| of.starts),
        row("runs", |of| of.runs),
        row("  of these refused", |of| of.refused),
        row("settles", |of| of.settles.calls),
        row("  of these refused", |of| of.settles.refused),
        row(
            "cycles of the core, instructions of the plain machine",
            |of| of.used,
        ),
        row("  of these one by one, in runs with a budget of 1", |of| {
            of.singles
        }),
        row("  of these in settles", |of| of.settles.cycles),
        row("instructions, but for starts and tampered records", |of| {
            of.instructions
        }),
        row(
            "boundaries from a start, the sums coming to the cycles",
            |of| of.boundaries,
        ),
        row("bytes of the memory changed between calls", |of| of.pokes),
        row("tampered records run or settled", |of| of.tampered),
        row("  of these found bad", |of| of.tampered_bad),
    ];
    let line = |name: &str, core: &str, plain: &str| format!("{name:<54}{core:>14}{plain:>16}");
    let mut text = line("", "core", "plain machine");
    for (name, core, plain) in rows {
        if core + plain > 0 {
            text += "\n";
            text += &line(name, &grouped(core), &grouped(plain));
        }
    }
    text
}

fn words(words: &Words) -> String {
    format!(
        "{} words were read, held to the interpreter's decoder and written back;\n\
         {} records of words, most of them made up or tampered with, were written.",
        grouped(words.words),
        grouped(words.records)
    )
}

fn answers(counts: &Counts) -> String {
    let mut text = format!(
        "{:>6}{:>14}{:>14}{:>16}{:>14}  {}",
        "answer", "core", "its settles", "plain machine", "word writer", "meaning"
    );
    for (number, meaning) in ANSWERS {
        let writer = match number {
            0 => counts.words.written,
            5 => counts.words.refused,
            _ => 0,
        };
        text += &format!(
            "\n{number:>6}{:>14}{:>14}{:>16}{:>14}  {meaning}",
            grouped(counts.core.answers[number]),
            grouped(counts.core.settles.answers[number]),
            grouped(counts.plain.answers[number]),
            grouped(writer)
        );
    }
    text
}

fn phases(phases: &[u64; 20]) -> String {
    let title = "Single cycles of the images' cores, by where they began: \
                 refills of the pipe, steps of an instruction";
    in_rows(title, &by_phase(phases))
}

/// In the order in which a core comes to them: the refills, then the steps of an instruction.
fn by_phase(phases: &[u64; 20]) -> Vec<String> {
    let refills = (1..=2).map(|number| (format!("refill {number}"), phases[number]));
    let first = std::iter::once(("step 1".to_string(), phases[0]));
    let steps = (2..=18).map(|step| (format!("step {step}"), phases[step + 1]));
    refills
        .chain(first)
        .chain(steps)
        .map(|(name, count)| cell(&name, count))
        .collect()
}

/// Those that were done, and those that would have passed the most cycles.
fn settles(settles: &Settles) -> String {
    let done = "Settles that answered 0, of tampered records too, by where they began; \
                at step 1 there is nothing left to do";
    let limited = "Settles that answered 13, likewise";
    [
        in_rows(done, &by_phase(&settles.phases)),
        in_rows(limited, &by_phase(&settles.limited)),
    ]
    .join("\n\n")
}

fn multiplies(multiplies: &[u64; 16]) -> String {
    let cells: Vec<String> = (1..)
        .zip(multiplies)
        .map(|(m, &count)| cell(&format!("m {m}"), count))
        .collect();
    let title = "Multiplies that such a single cycle ended, by the m that Rs gave them";
    in_rows(title, &cells)
}

fn cell(name: &str, count: u64) -> String {
    format!("{name:<8}{:>12}", grouped(count))
}

/// Four cells in a row.
fn in_rows(title: &str, cells: &[String]) -> String {
    let mut text = title.to_string();
    for row in cells.chunks(4) {
        text += "\n";
        text += &row.join("    ");
    }
    text
}

fn rewritten(writes: &Writes) -> String {
    let long = format!("of these runs took {LONG} cycles or more");
    let rows = [
        (writes.images, "images"),
        (
            writes.copies,
            "copies of a core and its memory, taken on the way",
        ),
        (writes.words, "words written to the copies' memory"),
        (
            writes.settles,
            "settles of copies between such writes and a run",
        ),
        (
            writes.settles_midway,
            "of these settles began in the middle of an instruction or refill",
        ),
        (writes.runs, "runs of copies, each after such writes"),
        (writes.cycles, "cycles of these runs"),
        (
            writes.other_ix,
            "of these runs began with the core about to do another word than the memory's at A",
        ),
        (
            writes.other_ir1,
            "of these runs began so with the word after it, at A+4",
        ),
        (writes.long, &long),
        (
            writes.long_other,
            "of these long ones began in one of those ways",
        ),
    ];
    let mut text =
        "Rewritten images: the memory got other words where the core had already fetched, \
                    and the core ran on:"
            .to_string();
    for (count, what) in rows {
        text += &format!("\n{:>14}  {what}", grouped(count));
    }
    text
}

/// What to type to come to this place again.
fn again(place: &Place, asked: Asked) -> String {
    match place {
        Place::Alone(alone) => format!("compare/run {alone}"),
        Place::Within(_) => format!("compare/run {asked}"),
    }
}

fn firsts(comparison: &Comparison) -> String {
    let mut text = "The first difference of each part, and what comes to it again:".to_string();
    for (part, place) in &comparison.firsts {
        let again = again(place, comparison.asked);
        text += &format!("\n  part {part}, {place}: {again}");
    }
    text
}

fn verdict(comparison: &Comparison) -> String {
    let verdict = format!(
        "{} ({} s)",
        comparison.verdict(),
        comparison.progress.seconds()
    );
    match comparison.firsts.first() {
        Some((_, place)) => format!(
            "{verdict}; the first is printed above, and again by {}",
            again(place, comparison.asked)
        ),
        None => verdict,
    }
}
