//! What the coming cycle stores, and runs that fold the stores into a window.

use crate::comparison::Comparison;
use crate::{rate_images, rate_records};

const RANDOM_IMAGES: u64 = 12_000;

pub fn all(comparison: &mut Comparison, first: u64) {
    let directed = rate_images::directed();
    let total = directed.len() as u64 + RANDOM_IMAGES;
    comparison.begin("rates", total, "images");
    rate_records::all(comparison, first);
    let mut done = 0;
    for image in &directed {
        rate_images::in_every_way(comparison, image);
        done += 1;
        comparison.reached(done);
    }
    for number in 0..RANDOM_IMAGES {
        rate_images::one(comparison, first.wrapping_add(number));
        done += 1;
        comparison.reached(done);
    }
}

pub fn one(comparison: &mut Comparison, number: u64) {
    rate_images::one(comparison, number);
}
