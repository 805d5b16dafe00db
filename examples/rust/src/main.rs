//! Runs an image and prints every store into a link window: its cycle, and the cycles since the one before. Then the
//! cycles, the instructions done and the ticks of the slot memory so far. examples/embed.c is the same program in C.

mod slot;

use slot::{Core, Store};
use std::ffi::OsString;
use std::fs::File;
use std::io::{self, BufWriter, Read, Write};
use std::path::Path;
use std::process::ExitCode;

const MOST: u64 = 65536;
const MOST_CYCLES: u64 = 1 << 40;

const USAGE: &str = "\
usage: embed [IMAGE FROM-TO [CYCLES]]
Runs IMAGE, raw memory from address 0, where it begins, and prints every store into the link window.
  FROM-TO   hexadecimal byte addresses, multiples of 4, TO not included
  CYCLES    how many to run at most: 1000000 unless given, at most 1099511627776 (2^40)
Without arguments a sample runs, with the window 80-84.
Status 0, or 1 where the image is refused, or 2 where something else is wrong.
";

/// R1 counts to 5, and each count is stored at 80; then a SWI, which stops with 22.
const SAMPLE: [u32; 7] = [0xE3A00080, 0xE3A01000, 0xE2811001, 0xE5801000, 0xE3510005, 0x1AFFFFFB, 0xEF000000];

fn sample() -> Vec<u8> {
    let mut memory: Vec<u8> = SAMPLE.iter().flat_map(|word| word.to_le_bytes()).collect();
    memory.resize(256, 0);
    memory
}

fn meaning(answer: u32) -> &'static str {
    match answer {
        0 => "the cycles asked for are spent",
        1 => "an image has 16 to 65536 bytes, a multiple of 4",
        21 => "no word there: the program ran past the end of memory",
        22 => "a SWI, or an instruction that this core has not",
        23 => "a form that the rules forbid",
        24 => "a load or store outside memory",
        25 => "a store to one of the next two words, which are fetched already",
        _ => "refused",
    }
}

/// What ends the program early: the status, and what is told on standard error.
struct Wrong {
    status: u8,
    text: String,
}

fn wrong<T>(text: String) -> Result<T, Wrong> {
    Err(Wrong { status: 2, text })
}

/// Digits alone, with no sign and no space.
fn number(text: &str, base: u32, most: u64) -> Option<u64> {
    let digits = text.chars().all(|digit| digit.is_digit(base));
    let value = u64::from_str_radix(text, base).ok()?;
    (digits && value <= most).then_some(value)
}

/// An image, and no more of it than shows that it is too long.
fn load(path: &Path) -> Result<Vec<u8>, Wrong> {
    let mut memory = Vec::new();
    let read = File::open(path).and_then(|file| file.take(MOST + 1).read_to_end(&mut memory));
    match read {
        Ok(_) => Ok(memory),
        Err(error) => wrong(format!("cannot read {}: {error}", path.display())),
    }
}

struct Window {
    from: u64,
    to: u64,
}

fn window(text: &str) -> Result<Window, Wrong> {
    let ends = text.split_once('-').and_then(|(from, to)| Some((number(from, 16, MOST)?, number(to, 16, MOST)?)));
    match ends {
        Some((from, to)) if from % 4 == 0 && to % 4 == 0 && from < to => Ok(Window { from, to }),
        _ => wrong(format!("'{text}' is no window FROM-TO: hexadecimal multiples of 4, FROM below TO, up to 10000")),
    }
}

fn tell(out: &mut impl Write, cycle: u64, gap: Option<u64>, store: &Store) -> io::Result<()> {
    let plural = if store.bytes == 1 { "" } else { "s" };
    let digits = 2 * store.bytes as usize;
    write!(out, "cycle {cycle}: {} byte{plural} at {:08X}, {:0digits$X}", store.bytes, store.address, store.datum)?;
    match gap {
        Some(gap) => writeln!(out, ", {gap} after the one before"),
        None => writeln!(out),
    }
}

/// Runs a started core and tells its stores.
fn watch(out: &mut impl Write, mut core: Core, memory: &mut [u8], window: &Window, most: u64) -> io::Result<()> {
    let (mut answer, mut cycles, mut stores, mut last) = (0, 0, 0, None);
    while answer == 0 && cycles < most {
        let store = core.coming_store();
        let used;
        (answer, used) = core.cycle(memory);
        cycles += used;
        if let Some(store) = store.filter(|store| (window.from..window.to).contains(&u64::from(store.address))) {
            tell(out, cycles, last.map(|last| cycles - last), &store)?;
            last = Some(cycles);
            stores += 1;
        }
    }
    write!(out, "answer {answer} ({})", meaning(answer))?;
    if answer != 0 {
        write!(out, " at {:08X}", core.next_address())?;
    }
    let (from, to) = (window.from, window.to);
    write!(out, " after {cycles} cycles and {} instructions ({} ticks)", core.retired(), core.ticks())?;
    writeln!(out, "; stores into {from:08X}-{to:08X}: {stores}")?;
    out.flush()
}

fn run(arguments: &[OsString]) -> Result<(), Wrong> {
    let text = |at: usize| arguments.get(at).map(|text| text.to_string_lossy());
    let window = window(&text(1).unwrap_or("80-84".into()))?;
    let most = match text(2) {
        Some(text) => match number(&text, 10, MOST_CYCLES) {
            Some(cycles) => cycles,
            None => return wrong(format!("'{text}' is no number of cycles up to {MOST_CYCLES}")),
        },
        None => 1_000_000,
    };
    let mut memory = match arguments.first() {
        Some(path) => load(Path::new(path))?,
        None => sample(),
    };
    let name = text(0).unwrap_or("the sample".into());
    if memory.starts_with(b"\x7FELF") {
        return wrong(format!("{name} is an ELF file and no raw image; arm-none-eabi-objcopy -O binary ELF IMAGE makes one"));
    }
    let core = Core::start(&memory).map_err(|answer| Wrong {
        status: 1,
        text: format!("{name} is refused with {answer}: {}", meaning(answer)),
    })?;
    if window.to > memory.len() as u64 {
        return wrong(format!("the window ends at {:X}, the image at {:X}", window.to, memory.len()));
    }
    let mut out = BufWriter::new(io::stdout().lock());
    watch(&mut out, core, &mut memory, &window, most).or_else(|error| wrong(format!("the output could not be written: {error}")))
}

fn main() -> ExitCode {
    let arguments: Vec<OsString> = std::env::args_os().skip(1).collect();
    let done = match arguments.len() {
        1 if arguments[0] == "--help" || arguments[0] == "-h" => io::stdout()
            .write_all(USAGE.as_bytes())
            .or_else(|error| wrong(format!("the output could not be written: {error}"))),
        1 => wrong(format!("an image needs a window\n{}", USAGE.trim_end())),
        0 | 2 | 3 => run(&arguments),
        _ => wrong(format!("too many arguments\n{}", USAGE.trim_end())),
    };
    match done {
        Ok(()) => ExitCode::SUCCESS,
        Err(Wrong { status, text }) => {
            eprintln!("embed: {text}");
            ExitCode::from(status)
        }
    }
}
