//! The figures that ./rate prints, from its arguments but for --plot:
//!
//! rate_figures IMAGE --link FROM-TO --clock HZ --options A,B [--buffer W] [--cycles N]
//!              [--end ADDRESS] [--gaps FILE]
//!
//! An image whose first byte is a colon is Intel HEX. Status 0, or 1 without a choice; 2 with a word
//! for the refusal on standard error, and what goes with it.

use interpreter::hex;
use interpreter::rate::arguments::read;
use interpreter::rate::figures::{figures, Asked, Refused};
use interpreter::stores::Store;
use std::fs::File;
use std::io::{BufWriter, Error, Read, Write};
use std::process::ExitCode;

/// The memory that Intel HEX is read into.
const MEMORY: usize = 65_536;

/// The most bytes of a file that are read: more than any text has that is read, and any image.
const MOST_BYTES: u64 = 1 << 27;

fn main() -> ExitCode {
    let words: Vec<String> = std::env::args().skip(1).collect();
    match answer(&words) {
        Ok((text, status)) => match std::io::stdout().write_all(text.as_bytes()) {
            Ok(()) => ExitCode::from(status),
            Err(_) => refused("output"),
        },
        Err(word) => refused(&word),
    }
}

fn refused(word: &str) -> ExitCode {
    eprintln!("{word}");
    ExitCode::from(2)
}

fn answer(words: &[String]) -> Result<(String, u8), String> {
    let arguments = read(words).map_err(|blamed| format!("arguments: {blamed}"))?;
    let asked = Asked {
        image: image(&arguments.image)?,
        from: arguments.from,
        to: arguments.to,
        clock: arguments.clock,
        options: arguments.options,
        buffer: arguments.buffer,
        cycles: arguments.cycles,
        end: arguments.end,
    };
    let mut list = List::new(arguments.gaps);
    let text = figures(&asked, |store| list.add(store)).map_err(word)?;
    list.end().map_err(|_| "output")?;
    Ok(text)
}

/// The list of the stores, in a file if there is to be one. It is made once the first store comes, as
/// none does where the figures are refused.
struct List {
    name: Option<String>,
    file: Option<BufWriter<File>>,
    failed: Option<Error>,
}

impl List {
    fn new(name: Option<String>) -> List {
        List {
            name,
            file: None,
            failed: None,
        }
    }

    fn add(&mut self, store: &Store) {
        if self.failed.is_none() {
            self.failed = self.write(store).err();
        }
    }

    fn write(&mut self, store: &Store) -> Result<(), Error> {
        if let Some(name) = self.name.take() {
            self.file = Some(BufWriter::new(File::create(name)?));
        }
        let Some(file) = &mut self.file else {
            return Ok(());
        };
        let Store {
            cycle,
            tick,
            address,
            ..
        } = store;
        writeln!(file, "{cycle} {tick} {address:08X} {}", store.bits())
    }

    fn end(self) -> Result<(), Error> {
        match self {
            List {
                failed: Some(error),
                ..
            } => Err(error),
            List {
                file: Some(mut file),
                ..
            } => file.flush(),
            _ => Ok(()),
        }
    }
}

fn image(name: &str) -> Result<Vec<u8>, String> {
    let mut bytes = Vec::new();
    let read = match name {
        "-" => std::io::stdin().take(MOST_BYTES).read_to_end(&mut bytes),
        name => File::open(name).and_then(|file| file.take(MOST_BYTES).read_to_end(&mut bytes)),
    };
    read.map_err(|_| "image")?;
    if bytes.starts_with(b"\x7fELF") {
        return Err("elf".to_string());
    }
    if !bytes.starts_with(b":") {
        return Ok(bytes);
    }
    let mut memory = vec![0; MEMORY];
    match hex::read(&bytes, &mut memory) {
        Ok(()) => Ok(memory),
        Err(refused) => Err(format!("hex {} {}", refused.number, refused.line)),
    }
}

fn word(refused: Refused) -> String {
    match refused {
        Refused::Length => "length".to_string(),
        Refused::Window => "window".to_string(),
        Refused::Stop { stop, address } => format!("stop {stop} {address:08X}"),
        Refused::Stores(count) => format!("stores {count}"),
    }
}
