//! Blocks as the air leaves them: r symbols replaced and u missing, up to and beyond the bounds of demand 3.

use olivia_tests::paper;
use olivia_tests::random::Random;

/// r symbols replaced and u missing.
#[derive(Clone, Copy, Debug)]
pub struct Amount {
    pub replaced: usize,
    pub missing: usize,
}

impl Amount {
    fn cost(self) -> usize {
        2 * self.missing + 4 * self.replaced
    }

    /// 64 − 2u − 4r is at least m: the same text is given.
    pub fn keeps_text(self, least_lead: usize) -> bool {
        self.cost() + least_lead <= 64
    }

    /// 2u + 4r is below 64 + m: no other text is given.
    pub fn shuts_out_others(self, least_lead: usize) -> bool {
        self.cost() < 64 + least_lead
    }
}

/// For each r that has one, the last amount within the bound, and the first beyond it.
pub fn edges(within: impl Fn(Amount) -> bool) -> Vec<Amount> {
    let mut amounts = vec![];
    for replaced in 0..=paper::SYMBOLS {
        let amount = |missing| Amount { replaced, missing };
        let most = paper::SYMBOLS - replaced;
        let beyond = (0..=most).find(|&missing| !within(amount(missing)));
        let last = beyond.map_or(Some(most), |missing| missing.checked_sub(1));
        amounts.extend(last.map(amount));
        amounts.extend(beyond.map(amount));
        if last.is_none() {
            break;
        }
    }
    amounts
}

/// Where the damage goes.
#[derive(Clone, Copy, Debug)]
pub enum Aim {
    /// To any places, with any other tones.
    Anywhere,
    /// To places that count towards one rival word of one character, with tones that differ in that character's bit alone.
    OneCharacter,
    /// To the same places, with tones that differ in every character's bit.
    EveryCharacter,
}

pub const AIMS: [Aim; 3] = [Aim::Anywhere, Aim::OneCharacter, Aim::EveryCharacter];

impl Aim {
    /// All places, those that the damage goes to first in front. The code is that of the character aimed at.
    pub fn places(self, random: &mut Random, code: u8) -> Vec<usize> {
        match self {
            Aim::Anywhere => random.shuffled(paper::SYMBOLS),
            Aim::OneCharacter | Aim::EveryCharacter => towards_a_rival(random, code),
        }
    }

    /// The tone that replaces this one, which was sent at place t; q is the character aimed at.
    pub fn replaced(self, random: &mut Random, b: usize, q: usize, t: usize, tone: u16) -> u16 {
        let turned = match self {
            Aim::Anywhere => random.between(1, paper::tone_count(b) - 1),
            Aim::OneCharacter => 1 << paper::place_in_symbol(b, q, t),
            Aim::EveryCharacter => paper::tone_count(b) - 1,
        };
        paper::tone_of(paper::symbol_of(tone) ^ turned as u16)
    }
}

/// The tones of a block with these codes, so damaged.
pub fn damaged(random: &mut Random, b: usize, codes: &[u8], amount: Amount, aim: Aim) -> Vec<u16> {
    let mut tones = paper::block_tones(b, codes);
    let q = random.below(b);
    let places = aim.places(random, codes[q]);
    let (replaced, others) = places.split_at(amount.replaced);
    for &t in replaced {
        tones[t] = aim.replaced(random, b, q, t, tones[t]);
    }
    for &t in &others[..amount.missing] {
        tones[t] = paper::MISSING;
    }
    tones
}

/// A block of mode 1 with the first so many even tones turned.
pub fn even_turned(tones: Vec<u16>, count: usize) -> Vec<u16> {
    even_changed(tones, count, |tone| tone ^ 1)
}

/// A block with the first so many even tones missing.
pub fn even_missing(tones: Vec<u16>, count: usize) -> Vec<u16> {
    even_changed(tones, count, |_| paper::MISSING)
}

fn even_changed(mut tones: Vec<u16>, count: usize, change: fn(u16) -> u16) -> Vec<u16> {
    for tone in tones.iter_mut().step_by(2).take(count) {
        *tone = change(*tone);
    }
    tones
}

/// All places, first the 32 at which the bit of a code differs from that of a code with another word.
fn towards_a_rival(random: &mut Random, code: u8) -> Vec<usize> {
    let other_word = random.between(1, 63) as u8;
    let rival = code ^ other_word ^ random.pick(&[0, 64]);
    let mut places = random.shuffled(paper::SYMBOLS);
    places.sort_by_key(|&t| paper::code_bit(code, t) == paper::code_bit(rival, t));
    places
}
