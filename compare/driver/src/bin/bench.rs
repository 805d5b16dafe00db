//! Times the product's core against the interpreter's machines.
//!
//! bench                                  the tables
//! bench long                             the product alone over many cycles
//! bench once IMAGE CYCLES [interpreter]  one run of the core, for a counter of instructions
//! bench steps IMAGE CALLS                calls of budget 1 of the product, for the same
//! bench settles IMAGE CALLS              so many of these, and a settle after each, for the same
//! bench hex                              the table of Intel HEX alone
//! bench hex READS [interpreter]          so many readings of an Intel HEX text, for the same
//! bench rate                             the table of watched runs alone
//! bench rate IMAGE CYCLES                one watched run of the product, for the same

use driver::archive::{core_run, core_settle, core_start, plain_run, plain_start, CoreArray};
use driver::hex_times::{self, Reader};
use driver::images;
use driver::rate_times;
use driver::records::core_of;
use interpreter::durations::duration;
use interpreter::memory::{set_word, word};
use interpreter::pipeline::{Core, Phase};
use interpreter::plain::Plain;
use interpreter::programs::Program;
use std::hint::black_box;
use std::process::ExitCode;
use std::time::{Duration, Instant};

/// The most that a call takes.
const CALL: u64 = 1_000_000;

const ROUNDS: u32 = 9;
const CYCLES: u64 = 2 * CALL;
const INSTRUCTIONS: u64 = CALL;

/// The budgets whose calls are timed, on these images.
const BUDGETS: [u64; 5] = [1, 10, 100, 1000, CALL];
const BY_CALLS: [&str; 3] = ["alu", "mix", "fir"];

/// What was simulated, and the time it took.
#[derive(Clone, Copy)]
struct Timed {
    took: Duration,
    cycles: u64,
    instructions: u64,
}

impl Timed {
    fn per_cycle(&self) -> f64 {
        self.took.as_secs_f64() * 1e9 / self.cycles as f64
    }

    fn per_instruction(&self) -> f64 {
        self.took.as_secs_f64() * 1e9 / self.instructions as f64
    }
}

/// The best of the rounds, in each of which all have their turn.
fn best<const N: usize>(round: impl Fn() -> [Timed; N]) -> [Timed; N] {
    let mut best = round();
    for _ in 1..ROUNDS {
        for (best, next) in best.iter_mut().zip(round()) {
            if next.took < best.took {
                *best = next;
            }
        }
    }
    best
}

fn image(name: &str) -> Program {
    images::image(name).expect("an image")
}

fn started(program: &Program) -> (CoreArray, Vec<u8>) {
    let memory = program.memory();
    let (_, core) = core_start(&program.r, program.flags, program.entry, &memory);
    (core, memory)
}

/// Runs so many cycles in the product by calls of this budget.
fn product(program: &Program, cycles: u64, budget: u64) -> Timed {
    let (core, memory) = started(program);
    product_from(core, memory, cycles, budget)
}

fn product_from(mut core: CoreArray, mut memory: Vec<u8>, cycles: u64, budget: u64) -> Timed {
    let before = core_of(&core).expect("a core");
    let began = Instant::now();
    let mut left = cycles;
    while left > 0 {
        let budget = left.min(budget);
        let (answer, used) = core_run(&mut core, &mut memory, budget);
        assert_eq!((answer, used), (0, budget), "the image stopped");
        left -= used;
    }
    let took = began.elapsed();
    let after = core_of(&core).expect("a core");
    assert_eq!(after.cycles, before.cycles + cycles);
    black_box(memory);
    Timed {
        took,
        cycles,
        instructions: after.retired - before.retired,
    }
}

/// Runs one cycle and settles the core in the product, so many times in turn.
fn product_settles(program: &Program, calls: u64) -> Timed {
    let (mut core, mut memory) = started(program);
    let began = Instant::now();
    for _ in 0..calls {
        assert_eq!(core_run(&mut core, &mut memory, 1), (0, 1));
        assert_eq!(core_settle(&mut core, &mut memory).0, 0);
    }
    let took = began.elapsed();
    let after = core_of(&core).expect("a core");
    black_box(memory);
    Timed {
        took,
        cycles: after.cycles,
        instructions: after.retired,
    }
}

fn pipeline(program: &Program, cycles: u64) -> Timed {
    let mut memory = program.memory();
    let (_, mut core) = Core::start(program.r, program.flags, program.entry, &memory);
    let began = Instant::now();
    let mut left = cycles;
    while left > 0 {
        let (answer, used, after) = core.run(&mut memory, left.min(CALL));
        assert_eq!(answer, 0, "the image stopped");
        core = after;
        left -= used;
    }
    let took = began.elapsed();
    black_box(memory);
    Timed {
        took,
        cycles,
        instructions: core.retired,
    }
}

/// The first instructions, whose cycles are known.
fn plain(program: &Program, cycles: u64) -> Timed {
    let mut memory = program.memory();
    let (_, mut plain) = Plain::start(program.r, program.flags, program.entry, &memory);
    let began = Instant::now();
    assert_eq!(plain.run(&mut memory, INSTRUCTIONS), (0, INSTRUCTIONS));
    let took = began.elapsed();
    black_box((plain, memory));
    Timed {
        took,
        cycles,
        instructions: INSTRUCTIONS,
    }
}

fn product_plain(program: &Program, cycles: u64) -> Timed {
    let mut memory = program.memory();
    let (_, mut plain) = plain_start(&program.r, program.flags, program.entry, &memory);
    let began = Instant::now();
    assert_eq!(
        plain_run(&mut plain, &mut memory, INSTRUCTIONS),
        (0, INSTRUCTIONS)
    );
    let took = began.elapsed();
    black_box((plain, memory));
    Timed {
        took,
        cycles,
        instructions: INSTRUCTIONS,
    }
}

/// The cycles of the first so many instructions, by the table of durations.
fn cycles_of(program: &Program, instructions: u64) -> u64 {
    let mut memory = program.memory();
    let (_, mut plain) = Plain::start(program.r, program.flags, program.entry, &memory);
    (0..instructions)
        .map(|_| {
            let cycles = duration(word(&memory, plain.a), plain.flags, &plain.r);
            plain.step(&mut memory);
            cycles
        })
        .sum()
}

/// The product's core, the interpreter's pipeline, its plain machine and the product's.
fn machines(program: &Program) -> [Timed; 4] {
    let plain_cycles = cycles_of(program, INSTRUCTIONS);
    best(|| {
        [
            product(program, CYCLES, CALL),
            pipeline(program, CYCLES),
            plain(program, plain_cycles),
            product_plain(program, plain_cycles),
        ]
    })
}

fn tables() {
    let timed = images::NAMES.map(|name| (name, machines(&image(name))));
    by_cycles(&timed);
    println!();
    by_instructions(&timed);
    println!();
    by_budgets();
    println!();
    after_writes();
    println!();
    rate_times::table(ROUNDS);
    println!();
    hex_times::table(ROUNDS);
}

fn by_cycles(timed: &[(&str, [Timed; 4])]) {
    println!("ns per simulated cycle, best of {ROUNDS} rounds in turn");
    println!(
        "{:<12}{:>10}{:>14}{:>14}{:>14}{:>12}{:>12}{:>14}",
        "image",
        "product",
        "interpreter",
        "interpreter",
        "product",
        "product /",
        "product /",
        "cycles per"
    );
    println!(
        "{:<12}{:>10}{:>14}{:>14}{:>14}{:>12}{:>12}{:>14}",
        "", "core", "pipeline", "plain", "plain", "pipeline", "int. plain", "instruction"
    );
    for (name, machines) in timed {
        let [core, pipeline, plain, product_plain] = machines.map(|it| it.per_cycle());
        println!(
            "{name:<12}{core:>10.2}{pipeline:>14.2}{plain:>14.2}{product_plain:>14.2}{:>12.2}{:>12.2}{:>14.3}",
            core / pipeline,
            core / plain,
            machines[2].cycles as f64 / machines[2].instructions as f64
        );
    }
}

fn by_instructions(timed: &[(&str, [Timed; 4])]) {
    println!("ns per simulated instruction, of the same rounds");
    println!(
        "{:<12}{:>10}{:>14}{:>14}{:>14}",
        "image", "product", "interpreter", "interpreter", "product"
    );
    println!(
        "{:<12}{:>10}{:>14}{:>14}{:>14}",
        "", "core", "pipeline", "plain", "plain"
    );
    for (name, machines) in timed {
        let [core, pipeline, plain, product_plain] = machines.map(|it| it.per_instruction());
        println!("{name:<12}{core:>10.2}{pipeline:>14.2}{plain:>14.2}{product_plain:>14.2}");
    }
}

fn by_budgets() {
    println!("ns per simulated cycle of the product's core by calls of one budget");
    let [first, .., last] = BUDGETS;
    let heads: String = BUDGETS.iter().map(|it| format!("{it:>12}")).collect();
    println!("{:<12}{heads}{:>16}", "image", format!("{first} / {last}"));
    for name in BY_CALLS {
        let program = image(name);
        let times = best(|| BUDGETS.map(|budget| product(&program, CALL, budget)));
        let times = times.map(|it| it.per_cycle());
        let shown: String = times.iter().map(|time| format!("{time:>12.2}")).collect();
        let [first, .., last] = times;
        println!("{name:<12}{shown}{:>16.1}", first / last);
    }
}

fn after_writes() {
    println!(
        "ns per simulated cycle of a call of {CALL}, the word at A+4 rewritten just before it"
    );
    println!(
        "{:<12}{:>12}{:>12}{:>12}",
        "image", "not", "rewritten", "ratio"
    );
    for name in BY_CALLS {
        let program = image(name);
        let [not, rewritten] = best(|| [false, true].map(|writes| after_write(&program, writes)))
            .map(|it| it.per_cycle());
        println!(
            "{name:<12}{not:>12.2}{rewritten:>12.2}{:>12.2}",
            rewritten / not
        );
    }
}

/// A call of the largest budget from a boundary, where the word at A+4 has a twin. If it `writes`,
/// this twin takes the word's place, so that memory and IR1 disagree and the program does the same.
fn after_write(program: &Program, writes: bool) -> Timed {
    let (mut core, mut memory) = started(program);
    core_run(&mut core, &mut memory, 1000);
    let (address, twin) = loop {
        core_run(&mut core, &mut memory, 1);
        if let Some(found) = twin_ahead(&core, &memory) {
            break found;
        }
    };
    if writes {
        set_word(&mut memory, address, twin);
    }
    product_from(core, memory, CALL, CALL)
}

/// At a boundary, A being PC-8: A+4 and another word for it that does the same.
fn twin_ahead(core: &CoreArray, memory: &[u8]) -> Option<(u32, u32)> {
    let core = core_of(core).expect("a core");
    let address = core.pc.wrapping_sub(4);
    let twin = images::twin(core.ir1?)?;
    (core.phase == Phase::Step(1) && core.ir1 == Some(word(memory, address)))
        .then_some((address, twin))
}

fn long() {
    println!("the product's core by calls of {CALL} cycles");
    println!(
        "{:<12}{:>14}{:>12}{:>16}",
        "image", "cycles", "s", "ns per cycle"
    );
    for name in images::NAMES {
        let program = image(name);
        product(&program, CALL, CALL);
        for cycles in [1_000_000, 100_000_000, 1_000_000_000] {
            let timed = product(&program, cycles, CALL);
            println!(
                "{name:<12}{cycles:>14}{:>12.3}{:>16.2}",
                timed.took.as_secs_f64(),
                timed.per_cycle()
            );
        }
    }
}

/// One run, as the arguments say: the image, the cycles, and what runs them.
fn counted(name: &str, cycles: &str, run: impl Fn(&Program, u64) -> Timed) -> ExitCode {
    let (Some(program), Ok(cycles)) = (images::image(name), cycles.parse()) else {
        eprintln!("images: {}", images::NAMES.join(" "));
        return ExitCode::from(2);
    };
    println!("retired {}", run(&program, cycles).instructions);
    ExitCode::SUCCESS
}

/// So many readings of the same text, likewise.
fn counted_hex(reader: Reader, reads: &str) -> ExitCode {
    let Ok(reads) = reads.parse() else {
        eprintln!("READS must be a number, not '{reads}'");
        return ExitCode::from(2);
    };
    println!("bytes {}", hex_times::counted(reader, reads));
    ExitCode::SUCCESS
}

/// One watched run, likewise.
fn counted_rate(name: &str, cycles: &str) -> ExitCode {
    let stores = cycles
        .parse()
        .ok()
        .and_then(|cycles| rate_times::counted(name, cycles));
    let Some(stores) = stores else {
        eprintln!("images: {} {}", images::NAMES.join(" "), images::SENDER);
        return ExitCode::from(2);
    };
    println!("stores {stores}");
    ExitCode::SUCCESS
}

fn main() -> ExitCode {
    let arguments: Vec<String> = std::env::args().skip(1).collect();
    let words: Vec<&str> = arguments.iter().map(String::as_str).collect();
    match words.as_slice() {
        [] => tables(),
        ["long"] => long(),
        ["once", name, cycles] => {
            return counted(name, cycles, |program, cycles| {
                product(program, cycles, CALL)
            });
        }
        ["once", name, cycles, "interpreter"] => return counted(name, cycles, pipeline),
        ["steps", name, calls] => {
            return counted(name, calls, |program, calls| product(program, calls, 1));
        }
        ["settles", name, calls] => return counted(name, calls, product_settles),
        ["hex"] => hex_times::table(ROUNDS),
        ["hex", reads] => return counted_hex(hex_times::product, reads),
        ["hex", reads, "interpreter"] => return counted_hex(hex_times::interpreter, reads),
        ["rate"] => rate_times::table(ROUNDS),
        ["rate", name, cycles] => return counted_rate(name, cycles),
        _ => {
            eprintln!(
                "usage: bench [long | once IMAGE CYCLES [interpreter] | steps IMAGE CALLS \
                 | settles IMAGE CALLS | hex [READS [interpreter]] | rate [IMAGE CYCLES]]"
            );
            return ExitCode::from(2);
        }
    }
    ExitCode::SUCCESS
}
