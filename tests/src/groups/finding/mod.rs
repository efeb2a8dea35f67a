//! The block in a long run of tones (document 02, order 1): calls worked out by hand, and random runs against the paper and against
//! decode_block at one start after the other.

mod call;
mod cases;
mod compare;
pub mod draw;

use super::Report;
use olivia_tests::library::{Block, Found};
use olivia_tests::random::Random;

const SEED: u64 = 9;

pub fn run() -> Report {
    let mut random = Random::new(SEED);
    let parts = [cases::run()?, compare::run(&mut random)?];
    Ok(parts.join("\n  "))
}

/// What is told of the block found, without its start.
fn block_found(found: Found) -> Block {
    Block {
        answer: found.answer,
        characters: found.characters,
    }
}
