//! Test vectors for the plain machine. `stdin` prints the cases, `stdout` the expected lines,
//! `topics` what each line is about; `run` reads other cases and prints their expected lines.

use interpreter::vectors;
use std::io::{Read, Write};

fn main() {
    let which = std::env::args().nth(1).unwrap_or_default();
    let text = match which.as_str() {
        "stdin" => vectors::input(&vectors::cases()),
        "stdout" => vectors::expected(&vectors::cases()),
        "topics" => topics(),
        "run" => vectors::expected(&vectors::read(&everything())),
        _ => {
            eprintln!("usage: plain_vectors stdin|stdout|topics|run");
            std::process::exit(2);
        }
    };
    std::io::stdout()
        .write_all(text.as_bytes())
        .expect("the text is written");
}

fn topics() -> String {
    let line = |(index, case): (usize, &vectors::Case)| format!("{}: {}\n", index + 1, case.topic);
    vectors::cases().iter().enumerate().map(line).collect()
}

fn everything() -> String {
    let mut text = String::new();
    std::io::stdin()
        .read_to_string(&mut text)
        .expect("cases on standard input");
    text
}
