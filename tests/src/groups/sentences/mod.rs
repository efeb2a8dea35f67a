//! Refusals in words (document 02, order 8): the list of the document against the library, calls worked out by hand, each check
//! before the later one, every place of every refusal written and read back, and random calls of both functions against the paper,
//! whose rule for the longest beginning is held against every sentence of the list.

mod call;
mod cases;
mod damaged;
mod list;
mod reads;
mod refusals;
mod round;
mod whole;
mod writes;

use super::Report;
use olivia_tests::random::Random;

const SEED: u64 = 8;

pub fn run() -> Report {
    let mut random = Random::new(SEED);
    let parts = [
        list::run()?,
        cases::run()?,
        refusals::run()?,
        round::run()?,
        whole::run(&mut random)?,
        writes::run(&mut random)?,
        reads::run(&mut random)?,
    ];
    Ok(parts.join("\n  "))
}
