//! Messages.

use super::hearing::{hear, PLAIN};
use super::refusals::{
    check_heard, check_lead, checked_mode, refusal, require, require_each, unclear, Refusal,
};
use super::sending::block_tones;
use super::{block_count, LONGEST_MESSAGE, SYMBOLS};

/// "The sender fills the last block with code 0. An empty message has no tones."
pub fn encode_message(mode: u32, text: &[u8], room: usize) -> Result<Vec<u16>, Refusal> {
    let b = checked_mode(mode)?;
    let blocks = block_count(b, text.len());
    require(text.len() <= LONGEST_MESSAGE, 5)?;
    require(room >= SYMBOLS * blocks, 9)?;
    require_each(text, |code| code == 0 || code >= 128, 6)?;
    let mut codes = text.to_vec();
    codes.resize(b * blocks, 0);
    Ok(codes
        .chunks(b)
        .flat_map(|block| block_tones(b, block))
        .collect())
}

/// "Block k of a message is the 64 tones that begin at place 64 × k. The receiver decides every block before writing anything."
pub fn decode_message(
    mode: u32,
    least_lead: u32,
    tones: &[u16],
    room: usize,
) -> Result<Vec<u8>, Refusal> {
    let b = checked_mode(mode)?;
    check_lead(least_lead)?;
    require(tones.len().is_multiple_of(SYMBOLS), 7)?;
    require(tones.len() <= SYMBOLS * block_count(b, LONGEST_MESSAGE), 7)?;
    require(room >= b * (tones.len() / SYMBOLS), 9)?;
    check_heard(b, tones)?;
    let mut codes = vec![];
    for (k, block) in tones.chunks(SYMBOLS).enumerate() {
        let text = hear(b, least_lead, block, &PLAIN).text;
        codes.extend(text.map_err(|refusal| unclear(b * k + refusal.place, refusal.lead))?);
    }
    text_of(b, &codes)
}

/// "Let n be the place after the last nonzero code, or 0. The text is the first n codes." "11 a 0 before n, place of the first; if
/// none, and at least b codes stand from n on, place n; 12 n over 1,024, place 1,024."
fn text_of(b: usize, codes: &[u8]) -> Result<Vec<u8>, Refusal> {
    let n = codes
        .iter()
        .rposition(|&code| code != 0)
        .map_or(0, |last| last + 1);
    require_each(&codes[..n], |code| code == 0, 11)?;
    if codes.len() - n >= b {
        return Err(refusal(11, n));
    }
    if n > LONGEST_MESSAGE {
        return Err(refusal(12, LONGEST_MESSAGE));
    }
    Ok(codes[..n].to_vec())
}
