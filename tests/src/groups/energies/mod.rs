//! A block checked without knowing its text (document 02, order 13): calls worked out by hand, and random blocks against the paper
//! and beside the records that decode_block and decode_weighted tell.

mod blocks;
pub mod call;
mod cases;
mod refusals;

use super::Report;
use olivia_tests::random::Random;

const SEED: u64 = 13;

/// A name, and calls of a mode.
type Case = (&'static str, fn(usize) -> Result<(), String>);

pub fn run() -> Report {
    let mut random = Random::new(SEED);
    let parts = [
        by_hand()?,
        blocks::plain(&mut random)?,
        blocks::weighted(&mut random)?,
    ];
    Ok(parts.join("\n  "))
}

fn by_hand() -> Report {
    let cases = [&cases::ACCEPTED[..], &refusals::REFUSED, &refusals::ORDERS].concat();
    for (name, case) in &cases {
        for b in 1..=8 {
            case(b).map_err(|difference| format!("{name}, mode {b}: {difference}"))?;
        }
    }
    Ok(format!(
        "{} cases, {} in each of 8 modes",
        8 * cases.len(),
        cases.len()
    ))
}
