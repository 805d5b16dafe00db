//! Compares the product's archive with the interpreter; see the README beside the package for what
//! each part does, and the script compare/run for the arguments.

use driver::arguments::Asked;
use driver::comparison::Comparison;
use driver::{
    block_stops, directed, hex, multiplies, random_images, rates, refills, rewritten, settles,
    starts, summary, sums, words,
};
use interpreter::pipeline::Core;
use interpreter::plain::Plain;
use std::process::ExitCode;

type Part = fn(&mut Comparison, u64);

const PARTS: [Part; 13] = [
    |comparison, _| starts::all::<Core>(comparison),
    |comparison, _| starts::all::<Plain>(comparison),
    |comparison, _| directed::all(comparison),
    |comparison, _| block_stops::all(comparison),
    |comparison, _| multiplies::all(comparison),
    |comparison, _| settles::all(comparison),
    |comparison, _| sums::all(comparison),
    refills::all,
    random_images::all,
    rewritten::all,
    rates::all,
    words::all,
    hex::all,
];

fn main() -> ExitCode {
    let arguments: Vec<String> = std::env::args_os()
        .skip(1)
        .map(|argument| argument.to_string_lossy().into_owned())
        .collect();
    let asked = match Asked::of(&arguments) {
        Ok(asked) => asked,
        Err(text) => {
            eprintln!("compare/run: {text}");
            return ExitCode::from(2);
        }
    };
    let comparison = compare(asked);
    println!("{}", summary::show(&comparison));
    if comparison.differences == 0 {
        ExitCode::SUCCESS
    } else {
        ExitCode::FAILURE
    }
}

fn compare(asked: Asked) -> Comparison {
    let mut comparison = Comparison::new(asked, PARTS.len());
    match asked {
        Asked::All(seed) => {
            println!("seed {seed}: compare/run {asked} does the same again");
            for part in PARTS {
                part(&mut comparison, seed);
            }
        }
        Asked::Image(number) => {
            println!("random image {number} alone");
            random_images::one(&mut comparison, number);
        }
        Asked::Writes(number) => {
            println!("rewritten image {number} alone");
            rewritten::one(&mut comparison, number);
        }
        Asked::Hex(number) => {
            println!("random Intel HEX file {number} alone");
            hex::one(&mut comparison, number);
        }
        Asked::Rates(number) => {
            println!("random image {number} alone, watched for its stores");
            rates::one(&mut comparison, number);
        }
    }
    comparison
}
