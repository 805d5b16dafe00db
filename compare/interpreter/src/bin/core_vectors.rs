//! Test vectors for the core. `stdin` prints the cases, `stdout` the expected lines, `topics` what
//! each line is about; `run` reads other cases and prints their expected lines.

use interpreter::core_vectors;
use std::io::{Read, Write};

fn main() {
    let which = std::env::args().nth(1).unwrap_or_default();
    let text = match which.as_str() {
        "stdin" => core_vectors::input(&core_vectors::cases()),
        "stdout" => core_vectors::expected(&core_vectors::cases()),
        "topics" => topics(),
        "run" => core_vectors::expected(&core_vectors::read(&everything())),
        _ => {
            eprintln!("usage: core_vectors stdin|stdout|topics|run");
            std::process::exit(2);
        }
    };
    std::io::stdout()
        .write_all(text.as_bytes())
        .expect("the text is written");
}

fn topics() -> String {
    let line =
        |(index, case): (usize, &core_vectors::Case)| format!("{}: {}\n", index + 1, case.topic);
    core_vectors::cases().iter().enumerate().map(line).collect()
}

fn everything() -> String {
    let mut text = String::new();
    std::io::stdin()
        .read_to_string(&mut text)
        .expect("cases on standard input");
    text
}
