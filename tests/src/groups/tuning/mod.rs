//! How far off tune a measured frequency is (document 02, order 4): measurements worked out by hand, every edge of a band with its
//! neighbours, every tone's own frequency, and random measurements, each against the paper.

pub mod call;
mod cases;
pub mod draw;
mod edges;
mod measurements;
mod refusals;

use super::Report;
use olivia_tests::random::Random;

const SEED: u64 = 4;

pub fn run() -> Report {
    let mut random = Random::new(SEED);
    let parts = [
        cases::run()?,
        refusals::run()?,
        edges::edges()?,
        edges::tones()?,
        measurements::any_bits(&mut random)?,
        measurements::in_band(&mut random)?,
    ];
    Ok(parts.join("\n  "))
}
