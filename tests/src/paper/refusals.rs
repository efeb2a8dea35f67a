//! Who can cause a refusal.

use super::{tone_count, GREATEST_LEAD, GREATEST_WEIGHT, MISSING};

/// "A refusal returns its number and a place (0 unless stated) and writes nothing." Number 10 has a lead too.
#[derive(Clone, Copy, Debug, PartialEq, Eq)]
pub struct Refusal {
    pub number: u32,
    pub place: usize,
    pub lead: u32,
}

pub fn refusal(number: u32, place: usize) -> Refusal {
    Refusal {
        number,
        place,
        lead: 0,
    }
}

/// "10 unclear; place of the lowest unclear character, and its lead."
pub fn unclear(place: usize, lead: u32) -> Refusal {
    Refusal {
        number: 10,
        place,
        lead,
    }
}

pub fn require(kept: bool, number: u32) -> Result<(), Refusal> {
    if kept {
        Ok(())
    } else {
        Err(refusal(number, 0))
    }
}

/// Refuses by the lowest place whose value is wrong.
pub fn require_each<T: Copy>(
    values: &[T],
    wrong: impl Fn(T) -> bool,
    number: u32,
) -> Result<(), Refusal> {
    match values.iter().position(|&value| wrong(value)) {
        Some(place) => Err(refusal(number, place)),
        None => Ok(()),
    }
}

/// "1 mode not 1 to 8."
pub fn checked_mode(mode: u32) -> Result<usize, Refusal> {
    require((1..=8).contains(&mode), 1)?;
    Ok(mode as usize)
}

/// "2 lead not 1 to 64."
pub fn check_lead(least_lead: u32) -> Result<(), Refusal> {
    require((1..=64).contains(&least_lead), 2)
}

/// "With weights, m runs from 1 to 960 under refusal 2" (document 02, order 3).
pub fn check_weighted_lead(least_lead: u32) -> Result<(), Refusal> {
    require((1..=GREATEST_LEAD).contains(&least_lead), 2)
}

/// "8 a tone that is neither below 2^b nor an allowed missing mark; lowest place."
pub fn check_heard(b: usize, tones: &[u16]) -> Result<(), Refusal> {
    let wrong = |tone: u16| usize::from(tone) >= tone_count(b) && tone != MISSING;
    require_each(tones, wrong, 8)
}

/// "14, a weight above 15, at a missing tone too, lowest place" (document 02, order 3).
pub fn check_weights(weights: &[u8]) -> Result<(), Refusal> {
    require_each(weights, |weight| weight > GREATEST_WEIGHT, 14)
}
