//! What was compared of watched runs, for the last lines.

use crate::counts::Rates;
use crate::figures::grouped;

/// What a watched run's answers mean.
const ANSWERS: [(u32, &str); 11] = [
    (0, "the budget is spent"),
    (3, "refused: a budget above 1,000,000"),
    (11, "refused: a bad record"),
    (12, "refused: memory of another length"),
    (13, "refused: it could go past 2^40 cycles"),
    (58, "refused: a bad window"),
    (21, "stop: no word at A"),
    (22, "stop: not an instruction of this core, or a SWI"),
    (23, "stop: a forbidden form"),
    (24, "stop: an address outside the memory"),
    (25, "stop: a store to a word already fetched"),
];

pub fn show(rates: &Rates) -> String {
    format!("{}\n{}", counts(rates), answers(rates))
}

fn counts(rates: &Rates) -> String {
    let [nothing, bytes, words] = rates.told;
    let rows = [
        (
            nothing,
            "cores asked what their coming cycle stores: nothing",
        ),
        (bytes, "  a byte"),
        (words, "  a word"),
        (
            rates.as_told,
            "  of these cycles done with what was told as the window",
        ),
        (rates.images, "images, counted for each way to run them"),
        (rates.runs, "runs that fold the stores into a window"),
        (
            rates.both,
            "  of these held to the product's own unwatched run too",
        ),
        (rates.cycles, "cycles of these runs"),
        (rates.singles, "  of these one by one"),
        (rates.stores, "stores folded"),
        (rates.summaries, "summaries put there that no run has made"),
        (rates.tampered, "tampered records run"),
        (rates.tampered_bad, "  of these found bad"),
    ];
    let mut text = "Watched runs: after each the answer, the cycles, every word of the record, \
                    the memory and the summary."
        .to_string();
    for (count, what) in rows {
        text += &format!("\n{:>14}  {what}", grouped(count));
    }
    text
}

fn answers(rates: &Rates) -> String {
    let mut text = format!("{:>6}{:>14}  {}", "answer", "watched runs", "meaning");
    for (number, meaning) in ANSWERS {
        let count = rates.answers.get(&number).copied().unwrap_or(0);
        text += &format!("\n{number:>6}{:>14}  {meaning}", grouped(count));
    }
    text
}
