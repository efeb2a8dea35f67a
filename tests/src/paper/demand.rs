//! Demand 3, in "Hearing a block", and with weights in order 3 of document 02.

use super::hearing::decode_block;
use super::refusals::Refusal;
use super::sending::encode_block;
use super::weights::decode_weighted;
use super::{GREATEST_LEAD, GREATEST_WEIGHT, MISSING, SYMBOLS};

/// A block sent and heard twice: as it was sent, and as `heard` has it.
#[derive(Clone, Debug, PartialEq, Eq)]
pub struct Trial {
    pub encoded: Result<Vec<u16>, Refusal>,
    pub first: Result<Vec<u8>, Refusal>,
    pub second: Result<Vec<u8>, Refusal>,
    pub replaced: usize,
    pub missing: usize,
}

/// "The first receiver hears those. The second hears tones that differ from them only so: at r places stands a tone other than the
/// one sent there, and at u other places stands 65535." The rooms are those of the tones and of the two texts.
pub fn trial(mode: u32, least_lead: u32, text: &[u8], heard: &[u16], rooms: [usize; 3]) -> Trial {
    let encoded = encode_block(mode, text, rooms[0]);
    let sent = encoded.clone().unwrap_or_default();
    let is_replaced = |(&heard, &sent): &(&u16, &u16)| heard != MISSING && heard != sent;
    Trial {
        first: decode_block(mode, least_lead, &sent, rooms[1]).text,
        second: decode_block(mode, least_lead, heard, rooms[2]).text,
        replaced: heard.iter().zip(&sent).filter(is_replaced).count(),
        missing: heard.iter().filter(|&&tone| tone == MISSING).count(),
        encoded,
    }
}

/// A block sent and heard twice: as it was sent, and as `heard` has it with these weights.
#[derive(Clone, Debug, PartialEq, Eq)]
pub struct WeightedTrial {
    pub encoded: Result<Vec<u16>, Refusal>,
    pub first: Result<Vec<u8>, Refusal>,
    pub second: Result<Vec<u8>, Refusal>,
    pub damage: usize,
}

/// "The first receiver has weight 15 throughout." The rooms are those of the tones and of the two texts.
pub fn weighted_trial(
    mode: u32,
    least_lead: u32,
    text: &[u8],
    heard: &[u16],
    weights: &[u8],
    rooms: [usize; 3],
) -> WeightedTrial {
    let encoded = encode_block(mode, text, rooms[0]);
    let sent = encoded.clone().unwrap_or_default();
    let throughout = [GREATEST_WEIGHT; SYMBOLS];
    WeightedTrial {
        first: decode_weighted(mode, least_lead, &sent, &throughout, rooms[1]).text,
        second: decode_weighted(mode, least_lead, heard, weights, rooms[2]).text,
        damage: damage(&sent, heard, weights),
        encoded,
    }
}

/// "Let D be the sum of 15 − weight over right symbols, 15 over missing ones, and 15 + weight over replaced ones." Where the paper
/// is silent: a tone past those sent is right, one past the weights has weight 0, and a right one of a weight above 15 adds nothing.
pub fn damage(sent: &[u16], heard: &[u16], weights: &[u8]) -> usize {
    let full = usize::from(GREATEST_WEIGHT);
    let of_tone = |(t, &tone): (usize, &u16)| {
        let weight = weights.get(t).copied().map_or(0, usize::from);
        let is_replaced = sent.get(t).is_some_and(|&sent| sent != tone);
        match tone {
            MISSING => full,
            _ if is_replaced => full + weight,
            _ => full.saturating_sub(weight),
        }
    };
    heard.iter().enumerate().map(of_tone).sum()
}

/// "Both give the text if 960 − 2 × D is at least m."
pub fn keeps_text(damage: usize, least_lead: usize) -> bool {
    2 * damage + least_lead <= GREATEST_LEAD as usize
}

/// "A wrong text is impossible while 2 × D is below 960 + m."
pub fn shuts_out_others(damage: usize, least_lead: usize) -> bool {
    2 * damage < GREATEST_LEAD as usize + least_lead
}
