//! The program `hex_cases`: what it prints, and with which status it ends.

use interpreter::hex;
use std::path::PathBuf;
use std::process::{Command, Output};

/// A file of its own for each test, with these bytes.
fn file(name: &str, bytes: &[u8]) -> String {
    let path = PathBuf::from(env!("CARGO_TARGET_TMPDIR")).join(name);
    std::fs::write(&path, bytes).expect("the file is written");
    path.to_str().expect("a plain path").to_string()
}

/// Status, standard output and standard error.
fn run(arguments: &[&str]) -> (Option<i32>, Vec<u8>, String) {
    let mut program = Command::new(env!("CARGO_BIN_EXE_hex_cases"));
    let Output {
        status,
        stdout,
        stderr,
    } = program.args(arguments).output().expect("it runs");
    (
        status.code(),
        stdout,
        String::from_utf8(stderr).expect("text"),
    )
}

fn refused(line: &str) -> (Option<i32>, Vec<u8>, String) {
    (Some(1), vec![], format!("{line}\n"))
}

#[test]
fn written_and_read() {
    for length in [16, 20, 36, 65_536] {
        let image: Vec<u8> = (0..length).map(|place| (place * 7 / 3) as u8).collect();
        let text = hex::text(&image).unwrap();
        let name = file("image", &image);
        let written = run(&["write", &name]);
        assert_eq!(written, (Some(0), text.clone(), String::new()));
        let name = file("text", &text);
        let read = run(&["read", &name, &length.to_string()]);
        assert_eq!(read, (Some(0), image, String::new()));
    }
}

#[test]
fn refusals() {
    assert_eq!(run(&["write", &file("short", &[0; 18])]), refused("1 0"));
    let end = file("end", b":00000001FF");
    assert_eq!(run(&["read", &end, "18"]), refused("1 0"));
    assert_eq!(run(&["read", &end, "0"]), refused("1 0"));
    assert_eq!(run(&["read", &end, "4294967295"]), refused("1 0"));
    let name = file("unsound", b":00000001FF\r");
    assert_eq!(run(&["read", &name, "16"]), refused("41 1"));
    let name = file("beyond", b":0100000000FF\n:0100100000EF\n:00000001FF\n");
    assert_eq!(run(&["read", &name, "16"]), refused("42 2"));
    let name = file("endless", b":0100000000FF\n:0100000000FF\n");
    assert_eq!(run(&["read", &name, "16"]), refused("43 2"));
    assert_eq!(run(&["read", &file("empty", b""), "16"]), refused("43 0"));
}

#[test]
fn wrong_usage() {
    let end = file("any", b":00000001FF");
    let calls: [&[&str]; 9] = [
        &[],
        &["write"],
        &["read", &end],
        &["read", &end, "x"],
        &["read", &end, "-16"],
        &["read", &end, "4294967296"],
        &["write", &end, "16"],
        &["read", &end, "16", "16"],
        &["print", &end],
    ];
    for call in calls {
        let (status, printed, line) = run(call);
        assert_eq!((status, printed), (Some(2), vec![]), "{call:?}");
        assert_eq!(line, "usage: hex_cases write IMAGE | read FILE LENGTH\n");
    }
    let (status, printed, _) = run(&["write", "no such image"]);
    assert_eq!((status, printed), (Some(2), vec![]));
}
