//! Intel HEX of whole images. `write IMAGE` prints the text of a raw image, `read FILE LENGTH` the raw
//! memory of that length that a text comes to. A refusal is `NUMBER LINE` on standard error.

use interpreter::hex;
use std::io::Write;
use std::process::exit;

fn main() {
    let arguments: Vec<String> = std::env::args().skip(1).collect();
    let arguments: Vec<&str> = arguments.iter().map(String::as_str).collect();
    let result = match arguments[..] {
        ["write", image] => hex::text(&bytes(image)).map_err(|number| (number, 0)),
        ["read", file, length] => match length.parse() {
            Ok(length) => memory(&bytes(file), length),
            Err(_) => usage(),
        },
        _ => usage(),
    };
    match result {
        Ok(bytes) => std::io::stdout()
            .write_all(&bytes)
            .expect("the bytes are written"),
        Err((number, line)) => {
            eprintln!("{number} {line}");
            exit(1);
        }
    }
}

fn memory(text: &[u8], length: u32) -> Result<Vec<u8>, (u32, usize)> {
    let mut memory = vec![0; length as usize];
    match hex::read(text, &mut memory) {
        Ok(()) => Ok(memory),
        Err(refused) => Err((refused.number, refused.line)),
    }
}

fn bytes(name: &str) -> Vec<u8> {
    std::fs::read(name).unwrap_or_else(|error| {
        eprintln!("hex_cases: {name}: {error}");
        exit(2);
    })
}

fn usage() -> ! {
    eprintln!("usage: hex_cases write IMAGE | read FILE LENGTH");
    exit(2);
}
