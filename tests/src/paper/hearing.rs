//! Hearing a block.

use super::refusals::{check_heard, check_lead, checked_mode, require, unclear, Refusal};
use super::sending::{is_minus, key_bit, place_in_symbol, tone_of};
use super::{MISSING, SYMBOLS};

/// "The Gray code of the entry at place g is g."
pub fn symbol_of(tone: u16) -> u16 {
    (0..256)
        .find(|&symbol| tone_of(symbol) == tone)
        .expect("a tone below 256")
}

/// The weights of plain hearing. With weights it is the "case with weight 15 at lead 15 × m, correlations and leads divided by 15"
/// (document 02, order 3), which is weight 1 at lead m.
pub const PLAIN: [u8; SYMBOLS] = [1; SYMBOLS];

/// "A heard bit counts +1 for 0 and −1 for 1; a missing symbol counts 0 for every character." In document 02, order 3: "64 weights,
/// each multiplying its symbol's +1 or −1; a missing tone has weight 0 whatever was sent."
fn counts_of(b: usize, symbols: &[Option<u16>], weights: &[u8], q: usize) -> Vec<i32> {
    let count_at = |t: usize| match symbols[t] {
        None => 0,
        Some(symbol) => match (symbol >> place_in_symbol(b, q, t) & 1) ^ key_bit(q, t) {
            0 => i32::from(weights[t]),
            _ => -i32::from(weights[t]),
        },
    };
    (0..SYMBOLS).map(count_at).collect()
}

fn correlation(counts: &[i32], c: usize) -> i32 {
    (0..SYMBOLS)
        .map(|t| {
            if is_minus(c, t) {
                -counts[t]
            } else {
                counts[t]
            }
        })
        .sum()
}

/// "The 64 correlations of one character are the sums over t of that count times the sign of each word": those of each of the b
/// characters.
pub fn correlations(b: usize, tones: &[u16], weights: &[u8]) -> Vec<Vec<i32>> {
    let symbols: Vec<Option<u16>> = tones
        .iter()
        .map(|&tone| (tone != MISSING).then(|| symbol_of(tone)))
        .collect();
    let of_character = |q: usize| {
        let counts = counts_of(b, &symbols, weights, q);
        (0..64).map(|c| correlation(&counts, c)).collect()
    };
    (0..b).map(of_character).collect()
}

/// "Beside every character, the winning word and the runner-up word, each with its signed correlation" (document 02, order 5).
#[derive(Clone, Copy, Debug, PartialEq, Eq)]
pub struct Character {
    pub code: u8,
    pub lead: u32,
    pub word: usize,
    pub correlation: i32,
    pub next: usize,
    pub next_correlation: i32,
}

/// "The best is the largest magnitude. The lead is the best magnitude minus the largest magnitude among the other 63 words. Its
/// code is the word's number, plus 64 if the correlation is negative." In document 02, order 5: "The runner-up is the
/// lowest-numbered word among the largest of the other 63 magnitudes." "For an unclear character the winner is the lowest-numbered
/// best word."
fn decide(correlations: &[i32]) -> Character {
    let magnitude = |c: usize| correlations[c].unsigned_abs();
    let best = (0..64).map(magnitude).max().expect("64 words");
    let is_best = |&c: &usize| magnitude(c) == best;
    let word = (0..64).find(is_best).expect("a best word");
    let others: Vec<usize> = (0..64).filter(|&c| c != word).collect();
    let rival = others
        .iter()
        .map(|&c| magnitude(c))
        .max()
        .expect("63 words");
    let is_rival = |&c: &usize| magnitude(c) == rival;
    let next = others.into_iter().find(is_rival).expect("a runner-up");
    let turned = if correlations[word] < 0 { 64 } else { 0 };
    Character {
        code: word as u8 + turned,
        lead: best - rival,
        word,
        correlation: correlations[word],
        next,
        next_correlation: correlations[next],
    }
}

/// What is heard of a block: the records of its b characters (none if it was refused before they are decided), and its codes or the
/// refusal. "A block's answer carries the record of all b characters, also when it is refused with 10" (document 02, order 5).
#[derive(Clone, Debug, PartialEq, Eq)]
pub struct Heard {
    pub characters: Vec<Character>,
    pub text: Result<Vec<u8>, Refusal>,
}

impl Heard {
    /// Refused before any character is decided.
    pub fn nothing(refusal: Refusal) -> Self {
        Heard {
            characters: vec![],
            text: Err(refusal),
        }
    }
}

/// "A character is clear if its lead is at least m. A block is accepted if all b characters are clear."
pub fn hear(b: usize, least_lead: u32, tones: &[u16], weights: &[u8]) -> Heard {
    let characters: Vec<Character> = correlations(b, tones, weights)
        .iter()
        .map(|correlations| decide(correlations))
        .collect();
    let is_unclear = |character: &Character| character.lead < least_lead;
    let text = match characters.iter().position(is_unclear) {
        Some(place) => Err(unclear(place, characters[place].lead)),
        None => Ok(characters.iter().map(|character| character.code).collect()),
    };
    Heard { characters, text }
}

/// "When hearing: 1, 2, 7, 9, 8, 10."
pub fn decode_block(mode: u32, least_lead: u32, tones: &[u16], room: usize) -> Heard {
    let checked = || -> Result<usize, Refusal> {
        let b = checked_mode(mode)?;
        check_lead(least_lead)?;
        require(tones.len() == SYMBOLS, 7)?;
        require(room >= b, 9)?;
        check_heard(b, tones)?;
        Ok(b)
    };
    match checked() {
        Ok(b) => hear(b, least_lead, tones, &PLAIN),
        Err(refusal) => Heard::nothing(refusal),
    }
}
