//! Cases for the report program. `stdin` prints the images, `stdout` the expected reports,
//! `topics` what each case is about.

use interpreter::reports;
use std::io::Write;

fn main() {
    let which = std::env::args().nth(1).unwrap_or_default();
    let text = match which.as_str() {
        "stdin" => reports::input(&reports::cases()),
        "stdout" => reports::expected(&reports::cases()),
        "topics" => topics(),
        _ => {
            eprintln!("usage: report_cases stdin|stdout|topics");
            std::process::exit(2);
        }
    };
    std::io::stdout()
        .write_all(text.as_bytes())
        .expect("the text is written");
}

fn topics() -> String {
    let line = |(index, case): (usize, &reports::Case)| format!("{}: {}\n", index + 1, case.topic);
    reports::cases().iter().enumerate().map(line).collect()
}
