//! Thirty stations, one transmitter (document 02, order 7): calls worked out by hand, each check before the later ones, long random
//! runs of calls against the paper with the order's laws counted along the way, and states that no run leaves.

mod cases;
pub mod draw;
mod laws;
mod line;
mod refusals;
mod runs;
pub mod senders;
mod state;
mod states;

use super::Report;
use olivia_tests::random::Random;

const SEED: u64 = 7;

pub fn run() -> Report {
    let mut random = Random::new(SEED);
    let parts = [
        cases::run()?,
        refusals::run()?,
        runs::run(&mut random)?,
        states::run(&mut random)?,
    ];
    Ok(parts.join("\n  "))
}
