//! Intel HEX texts to compare readers on: directed ones by topic, and random ones.

mod after_end;
mod counts;
mod damage;
mod digits;
mod ends;
mod file;
mod form;
mod kinds;
mod lengths;
mod lines;
mod order;
mod places;
mod scattered;
mod sound;
mod sums;

pub use file::HexFile;
pub use scattered::random;

/// Every directed file, in the order of the topics.
pub fn directed() -> Vec<HexFile> {
    let topics = [
        sound::files(),
        digits::files(),
        form::files(),
        sums::files(),
        counts::files(),
        kinds::files(),
        ends::files(),
        after_end::files(),
        places::files(),
        order::files(),
        lengths::files(),
    ];
    topics.into_iter().flatten().collect()
}
