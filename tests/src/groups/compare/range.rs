//! The range check by itself.

use super::super::lent::Lent;
use super::super::{expect_equal, looked_of};
use super::draw;
use super::{Met, Order};
use olivia_tests::library::{self, Looked};
use olivia_tests::paper::{self, tone_count, MISSING, SYMBOLS};
use olivia_tests::random::Random;

/// The longest run of tones.
const LONGEST: usize = 4096;

#[derive(Debug)]
pub struct Check {
    mode: u32,
    tones: Vec<u16>,
}

impl super::Case for Check {
    const FUNCTION: &'static str = "check_tones";
    const REFUSALS: &'static [u32] = &[1, 8];
    const ORDERS: &'static [Order] = &[(1, 8)];
    const OUTCOMES: &'static [&'static str] = &[
        "stopped at the first tone",
        "stopped between",
        "stopped at the last",
        "looked at all",
        "empty runs",
        "one bad tone",
        "several bad tones",
    ];

    fn draw(random: &mut Random) -> Self {
        let b = random.between(1, 8);
        let no_mode = random.one_in(8);
        let length = length(random);
        let mut tones = right_tones(random, b, length);
        if random.one_in(2) {
            spoil(random, b, &mut tones);
        }
        Check {
            mode: draw::mode(random, b, no_mode),
            tones,
        }
    }

    fn mode(&self) -> u32 {
        self.mode
    }

    fn compare(&self) -> Result<Met, String> {
        let mut tones = Lent::input(&self.tones);
        let given = library::check_tones(self.mode, tones.part());
        let said = paper::check_tones(self.mode, &self.tones);
        expect_equal("answer", looked_of(&said), given)?;
        tones.expect("tones handed in", &self.tones)?;
        Ok(Met {
            orders: self.orders(given.number),
            outcomes: self.outcomes(given),
            ..Met::numbers(&[given.number])
        })
    }
}

impl Check {
    /// Without a mode, a tone that is bad in every mode.
    fn orders(&self, number: u32) -> Vec<Order> {
        if number == 1 && self.bad_tones(8) > 0 {
            vec![(1, 8)]
        } else {
            vec![]
        }
    }

    fn outcomes(&self, given: Looked) -> Vec<bool> {
        let count = self.tones.len() as u64;
        let is_first = given.number == 8 && given.place == 0;
        let is_last = given.number == 8 && given.place > 0 && given.looked == count;
        let bad_tones = match given.number {
            8 => self.bad_tones(self.mode as usize),
            _ => 0,
        };
        vec![
            is_first,
            given.number == 8 && !is_first && !is_last,
            is_last,
            count > 0 && given.looked == count,
            count == 0,
            bad_tones == 1,
            bad_tones > 1,
        ]
    }

    fn bad_tones(&self, b: usize) -> usize {
        let is_bad = |&&tone: &&u16| usize::from(tone) >= tone_count(b) && tone != MISSING;
        self.tones.iter().filter(is_bad).count()
    }
}

/// The length of a run: often a few tones or a block's, at times up to the longest.
fn length(random: &mut Random) -> usize {
    match random.below(8) {
        0 => random.below(3),
        1..=3 => random.below(20),
        4 => random.between(SYMBOLS - 1, SYMBOLS + 1),
        5 | 6 => random.below(300),
        _ => {
            let any = random.between(0, LONGEST);
            random.pick(&[any, any, LONGEST - 1, LONGEST])
        }
    }
}

/// Tones of the mode, with none, some or all of them missing, or at the ends of what is allowed.
fn right_tones(random: &mut Random, b: usize, length: usize) -> Vec<u16> {
    let kind = random.below(6);
    let greatest = tone_count(b) as u16 - 1;
    let tone = |random: &mut Random| match kind {
        0 => MISSING,
        1 => random.pick(&[0, greatest, MISSING]),
        2 if random.one_in(8) => MISSING,
        _ => random.below(tone_count(b)) as u16,
    };
    (0..length).map(|_| tone(random)).collect()
}

/// Puts in bad tones: one at an end or at any place, one to three, or one in two.
pub fn spoil(random: &mut Random, b: usize, tones: &mut [u16]) {
    let Some(last) = tones.len().checked_sub(1) else {
        return;
    };
    match random.below(6) {
        0 => tones[0] = draw::wrong_tone(random, b),
        1 => tones[last] = draw::wrong_tone(random, b),
        2 | 3 => tones[random.between(0, last)] = draw::wrong_tone(random, b),
        4 => draw::spoil(random, tones, |random| draw::wrong_tone(random, b)),
        _ => {
            for tone in tones {
                if random.one_in(2) {
                    *tone = draw::wrong_tone(random, b);
                }
            }
        }
    }
}
