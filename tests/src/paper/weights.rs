//! Hearing a block with weights: order 3 of document 02.

use super::hearing::{hear, Heard};
use super::refusals::{
    check_heard, check_weighted_lead, check_weights, checked_mode, require, Refusal,
};
use super::SYMBOLS;

/// "A block may now be heard with 64 weights." "A weight count other than 64 is refusal 7." "14, a weight above 15, after 8." So the
/// checks are 1, 2, 7, 9, 8, 14, 10.
pub fn decode_weighted(
    mode: u32,
    least_lead: u32,
    tones: &[u16],
    weights: &[u8],
    room: usize,
) -> Heard {
    let checked = || -> Result<usize, Refusal> {
        let b = checked_mode(mode)?;
        check_weighted_lead(least_lead)?;
        require(tones.len() == SYMBOLS && weights.len() == SYMBOLS, 7)?;
        require(room >= b, 9)?;
        check_heard(b, tones)?;
        check_weights(weights)?;
        Ok(b)
    };
    match checked() {
        Ok(b) => hear(b, least_lead, tones, weights),
        Err(refusal) => Heard::nothing(refusal),
    }
}
