//! What compare is asked to do. The script compare/run has checked the arguments and says what they
//! mean; what it let through, or what came here without it, is refused in one line.

use std::fmt;

const DEFAULT_SEED: u64 = 1_000_000;

#[derive(Clone, Copy)]
pub enum Asked {
    /// Everything, the random part from this seed.
    All(u64),
    /// The one random image of this number.
    Image(u64),
    /// The one rewritten image of this number.
    Writes(u64),
    /// The one random Intel HEX file of this number.
    Hex(u64),
    /// The one random image of this number, watched for its stores.
    Rates(u64),
}

impl Asked {
    pub fn of(arguments: &[String]) -> Result<Asked, String> {
        match arguments {
            [] => Ok(Asked::All(DEFAULT_SEED)),
            [seed] => number("SEED", seed).map(Asked::All),
            [word, image] if word == "image" => number("NUMBER", image).map(Asked::Image),
            [word, image] if word == "writes" => number("NUMBER", image).map(Asked::Writes),
            [word, file] if word == "hex" => number("NUMBER", file).map(Asked::Hex),
            [word, image] if word == "rates" => number("NUMBER", image).map(Asked::Rates),
            _ => Err(format!("no such arguments: {}", arguments.join(" "))),
        }
    }
}

/// The arguments that ask for it.
impl fmt::Display for Asked {
    fn fmt(&self, out: &mut fmt::Formatter) -> fmt::Result {
        match self {
            Asked::All(seed) => write!(out, "{seed}"),
            Asked::Image(number) => write!(out, "image {number}"),
            Asked::Writes(number) => write!(out, "writes {number}"),
            Asked::Hex(number) => write!(out, "hex {number}"),
            Asked::Rates(number) => write!(out, "rates {number}"),
        }
    }
}

fn number(name: &str, text: &str) -> Result<u64, String> {
    text.parse().map_err(|_| {
        format!(
            "{name} must be a number from 0 to {}, not '{text}'",
            u64::MAX
        )
    })
}
