//! Times both readers of Intel HEX.

use crate::figures::grouped;
use crate::hex_archive::hex_read;
use crate::hex_texts::{image, texts, TimedText};
use interpreter::answers::FINE;
use interpreter::hex;
use std::time::{Duration, Instant};

/// How often a text is read in a round.
const READS: u32 = 20;

pub type Reader = fn(&mut [u8], &mut [u8]) -> u32;

pub fn product(text: &mut [u8], memory: &mut [u8]) -> u32 {
    hex_read(text, memory)
}

pub fn interpreter(text: &mut [u8], memory: &mut [u8]) -> u32 {
    hex::read(text, memory).map_or_else(|refused| refused.number, |()| FINE)
}

/// The best of so many rounds, in each of which both readers have their turn.
pub fn table(rounds: u32) {
    let image = image();
    println!(
        "reading Intel HEX into a memory of {} bytes, best of {rounds} rounds in turn",
        grouped(image.len() as u64)
    );
    println!(
        "{:<42}{:>10}{:>24}{:>14}{:>20}",
        "", "bytes of", "ns per byte of text", "product /", "MB of text a second"
    );
    println!(
        "{:<42}{:>10}{:>10}{:>14}{:>14}{:>10}{:>14}",
        "text", "text", "product", "interpreter", "interpreter", "product", "interpreter"
    );
    for mut text in texts(&image) {
        let mut best = [Duration::MAX; 2];
        for _ in 0..rounds {
            for (best, reader) in best.iter_mut().zip([product, interpreter] as [Reader; 2]) {
                *best = timed(&mut text, reader, READS, &image).min(*best);
            }
        }
        show(&text, best);
    }
}

fn show(text: &TimedText, best: [Duration; 2]) {
    let bytes = text.text.len() as u64;
    let [product, interpreter] =
        best.map(|took| took.as_secs_f64() * 1e9 / (u64::from(READS) * bytes) as f64);
    println!(
        "{:<42}{:>10}{product:>10.3}{interpreter:>14.3}{:>14.2}{:>10.0}{:>14.0}",
        text.name,
        grouped(bytes),
        product / interpreter,
        1000.0 / product,
        1000.0 / interpreter
    );
}

/// Reads the text so often, each time into the same memory.
fn timed(text: &mut TimedText, reader: Reader, reads: u32, image: &[u8]) -> Duration {
    let mut memory = vec![0xA5; image.len()];
    let began = Instant::now();
    for _ in 0..reads {
        assert_eq!(reader(&mut text.text, &mut memory), FINE, "{}", text.name);
    }
    let took = began.elapsed();
    assert!(memory == image, "{}", text.name);
    took
}

/// Reads the first text so often: how many bytes of text that was.
pub fn counted(reader: Reader, reads: u32) -> u64 {
    let image = image();
    let [mut text, ..] = texts(&image);
    timed(&mut text, reader, reads, &image);
    u64::from(reads) * text.text.len() as u64
}
