//! Tone frequencies, compared by their bits.

use super::super::expect_equal;
use super::draw::{self, Wrong};
use super::Met;
use olivia_tests::library;
use olivia_tests::paper::{self, WIDTHS};
use olivia_tests::random::Random;

#[derive(Debug)]
pub struct Frequency {
    mode: u32,
    width: u32,
    centre: u32,
    tone: u16,
}

impl super::Case for Frequency {
    const FUNCTION: &'static str = "frequency";
    const REFUSALS: &'static [u32] = &[1, 3, 4, 8];

    fn draw(random: &mut Random) -> Self {
        let wrong = Wrong::draw(random);
        let b = random.between(1, 8);
        let width = random.pick(&WIDTHS);
        Frequency {
            mode: draw::mode(random, b, wrong.mode),
            width: if wrong.count {
                wrong_width(random)
            } else {
                width
            },
            centre: centre(random, width, wrong.room),
            tone: tone(random, b, wrong.content),
        }
    }

    fn mode(&self) -> u32 {
        self.mode
    }

    fn compare(&self) -> Result<Met, String> {
        let given = library::frequency(self.mode, self.width, self.centre, self.tone);
        let said = paper::frequency(self.mode, self.width, self.centre, self.tone);
        let wanted = match said {
            Ok(hertz) => (0, 0, hertz.to_bits()),
            Err(refusal) => (refusal.number, refusal.place as u32, 0),
        };
        expect_equal(
            "answer",
            wanted,
            (given.number, given.place, given.hertz.to_bits()),
        )?;
        Ok(Met::numbers(&[given.number]))
    }
}

pub fn wrong_width(random: &mut Random) -> u32 {
    match random.below(4) {
        0 => random.pick(&[
            0, 1, 62, 63, 124, 126, 251, 499, 501, 999, 1001, 1999, 2001, 4000,
        ]),
        1 => random.pick(&[65_536 + 125, 65_536 + 1000, u32::MAX]),
        2 => random.between(2001, 20_000) as u32,
        _ => random.number() as u32 | 1 << 12,
    }
}

/// A centre within the limits, often on one of them, or outside.
pub fn centre(random: &mut Random, width: u32, wrong: bool) -> u32 {
    let least = width.div_ceil(2);
    match (wrong, random.below(4)) {
        (false, 0) => least,
        (false, 1) => 10_000,
        (false, _) => random.between(least as usize, 10_000) as u32,
        (true, 0) => least - 1,
        (true, 1) => 10_001,
        (true, 2) => random.below(least as usize) as u32,
        // Twice the last two is 0 and 2,000 in 32 bits.
        (true, _) => random.pick(&[65_536, u32::MAX, 1 << 31, (1 << 31) + 1000]),
    }
}

fn tone(random: &mut Random, b: usize, wrong: bool) -> u16 {
    match (wrong, random.below(4)) {
        (false, 0) => paper::tone_count(b) as u16 - 1,
        (false, _) => random.below(paper::tone_count(b)) as u16,
        (true, 0) => paper::MISSING,
        (true, _) => draw::wrong_tone(random, b),
    }
}
