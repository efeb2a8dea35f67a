//! Random inputs, each right or wrong as asked.

use super::super::damage::{damaged, edges, Amount, AIMS};
use super::tally::MODES;
use olivia_tests::paper;
use olivia_tests::random::Random;

/// Which limits a case breaks.
#[derive(Default)]
pub struct Wrong {
    pub mode: bool,
    pub lead: bool,
    pub count: bool,
    pub room: bool,
    pub content: bool,
}

impl Wrong {
    /// Half of the cases break none; in the others each is broken once in three times, so that several are broken at once.
    pub fn draw(random: &mut Random) -> Self {
        let some = random.one_in(2);
        let mut wrong = || some && random.one_in(3);
        Wrong {
            mode: wrong(),
            lead: wrong(),
            count: wrong(),
            room: wrong(),
            content: wrong(),
        }
    }
}

/// The mode to hand in, where `b` is a right one.
pub fn mode(random: &mut Random, b: usize, wrong: bool) -> u32 {
    match (wrong, random.below(4)) {
        (false, _) => b as u32,
        (true, 0) => random.pick(&[10, 31, 32, 33, 63, 64, 65, 255, 256, 257, 65_537]),
        (true, 1) => random.between(9, u32::MAX as usize) as u32,
        (true, _) => random.pick(&MODES[8..]),
    }
}

pub fn least_lead(random: &mut Random, wrong: bool) -> u32 {
    match (wrong, random.below(3)) {
        (false, _) => random.between(1, 64) as u32,
        (true, 0) => random.pick(&[67, 128, 255, 256, 257, 65_536, 65_552, u32::MAX]),
        (true, _) => random.pick(&[0, 65, 66]),
    }
}

/// The length of an output that `needed` is enough for: just that, a little more, or, if wrong, less.
pub fn room(random: &mut Random, needed: usize, wrong: bool) -> usize {
    match (wrong && needed > 0, random.below(3)) {
        (false, 0) => needed,
        (false, 1) => needed + 1,
        (false, _) => needed + random.below(70),
        (true, 0) => needed - 1,
        (true, 1) => 0,
        (true, _) => random.below(needed),
    }
}

/// A length other than the right one, which is not 0.
pub fn wrong_length(random: &mut Random, right: usize) -> usize {
    let any = random.below(200);
    let length = random.pick(&[0, 1, right - 1, right + 1, 2 * right, any]);
    if length == right {
        right + 1
    } else {
        length
    }
}

/// Puts one to three values from `wrong` to any places.
pub fn spoil<T>(random: &mut Random, values: &mut [T], mut wrong: impl FnMut(&mut Random) -> T) {
    if values.is_empty() {
        return;
    }
    for _ in 0..random.between(1, 3) {
        let place = random.below(values.len());
        values[place] = wrong(random);
    }
}

/// Makes a block's tones of a wrong count or with a wrong tone, as asked.
pub fn spoil_tones(random: &mut Random, b: usize, tones: &mut Vec<u16>, wrong: &Wrong) {
    if wrong.content {
        spoil(random, tones, |random| wrong_tone(random, b));
    }
    if wrong.count {
        *tones = tones.repeat(4);
        tones.truncate(wrong_length(random, paper::SYMBOLS));
    }
}

/// These codes, or, where they cannot be sent, others close to them that can.
pub fn codes_that_can_be_sent(codes: &[u8], b: usize) -> Vec<u8> {
    let mut sent = codes.to_vec();
    sent.resize(b, 0);
    sent.iter_mut().for_each(|code| *code %= 128);
    sent
}

/// A code that no output holds.
pub fn wrong_code(random: &mut Random) -> u8 {
    match random.below(3) {
        0 => 128,
        1 => 255,
        _ => random.between(128, 255) as u8,
    }
}

/// A tone that is neither one of the mode's nor the mark of a missing one.
pub fn wrong_tone(random: &mut Random, b: usize) -> u16 {
    match random.below(3) {
        0 => paper::tone_count(b) as u16,
        1 => random.pick(&[256, 257, 32_768, 65_534]),
        _ => random.between(paper::tone_count(b), 65_534) as u16,
    }
}

/// The 64 tones of a block of these codes as heard: clean, damaged at or beyond the bounds of demand 3, or noise.
pub fn heard(random: &mut Random, b: usize, codes: &[u8], least_lead: u32) -> Vec<u16> {
    let m = least_lead as usize;
    let amount = match random.below(6) {
        0 => return paper::block_tones(b, codes),
        1 => return noise(random, b, paper::SYMBOLS),
        2 | 3 => random.pick(&edges(|amount| amount.keeps_text(m))),
        4 => random.pick(&edges(|amount| amount.shuts_out_others(m))),
        _ => any_amount(random),
    };
    let aim = random.pick(&AIMS);
    damaged(random, b, codes, amount, aim)
}

fn any_amount(random: &mut Random) -> Amount {
    let replaced = random.between(0, paper::SYMBOLS);
    let missing = random.between(0, paper::SYMBOLS - replaced);
    Amount { replaced, missing }
}

/// So many tones of the mode at random, one in eight of them missing.
pub fn noise(random: &mut Random, b: usize, length: usize) -> Vec<u16> {
    let tone = |random: &mut Random| match random.below(8) {
        0 => paper::MISSING,
        _ => random.below(paper::tone_count(b)) as u16,
    };
    (0..length).map(|_| tone(random)).collect()
}
