//! Measured frequencies: the tone that owns each, and the distance, compared by its bits.

use super::super::tuning::call::{Bits, Call, Told};
use super::super::tuning::draw::{any, inside, not_finite, outside, small, Band};
use super::draw::{self, Wrong};
use super::frequency::{centre, wrong_width};
use super::{Met, Order};
use olivia_tests::paper::WIDTHS;
use olivia_tests::random::Random;

#[derive(Debug)]
pub struct Locate(Call);

impl super::Case for Locate {
    const FUNCTION: &'static str = "locate";
    const REFUSALS: &'static [u32] = &[1, 3, 4, 15, 16];
    const ORDERS: &'static [Order] = &[
        (1, 3),
        (1, 4),
        (1, 15),
        (1, 16),
        (3, 4),
        (3, 15),
        (3, 16),
        (4, 15),
        (4, 16),
        (15, 16),
    ];
    const OUTCOMES: &'static [&'static str] = &[
        "infinite",
        "not a number",
        "below the band",
        "at or above its upper edge",
        "at a stretch's lower edge",
        "below the tone",
        "on the tone",
        "above the tone",
        "0 or subnormal",
        "-0.0",
        "distance rounded",
    ];

    fn draw(random: &mut Random) -> Self {
        let wrong = Wrong::draw(random);
        let b = random.between(1, 8);
        let right_width = random.pick(&WIDTHS);
        let mode = draw::mode(random, b, wrong.mode);
        let width = if wrong.count {
            wrong_width(random)
        } else {
            right_width
        };
        let centre = centre(random, right_width, wrong.room);
        let hertz = hertz(random, &Band::new(b as u32, right_width, centre), &wrong);
        Locate(Call {
            mode,
            width,
            centre,
            hertz: Bits::of(hertz),
        })
    }

    fn mode(&self) -> u32 {
        self.0.mode
    }

    fn compare(&self) -> Result<Met, String> {
        let given = self.0.run()?;
        let number = given.err().unwrap_or(0);
        Ok(Met {
            orders: self.orders(number),
            outcomes: self.outcomes(given),
            ..Met::numbers(&[number])
        })
    }
}

impl Locate {
    /// The refusal with each later one whose limit is broken too.
    fn orders(&self, number: u32) -> Vec<Order> {
        let later = self.broken().into_iter().filter(|&later| later > number);
        match number {
            0 => vec![],
            _ => later.map(|later| (number, later)).collect(),
        }
    }

    /// The limits of width, centre and measurement that are broken, each judged alone. What is not a number is nowhere.
    fn broken(&self) -> Vec<u32> {
        let Call { width, centre, .. } = self.0;
        let hertz = self.0.hertz.number();
        let band = self.band();
        let limits = [
            (3, !WIDTHS.contains(&width)),
            (
                4,
                centre > 10_000 || 2 * u64::from(centre) < u64::from(width),
            ),
            (15, !hertz.is_finite()),
            (16, band.is_below(hertz) || band.is_above(hertz)),
        ];
        let broken = limits.into_iter().filter(|limit| limit.1);
        broken.map(|limit| limit.0).collect()
    }

    fn band(&self) -> Band {
        let Call { width, centre, .. } = self.0;
        // The ends of a band are the same in every mode.
        Band::new(1, width, centre)
    }

    fn outcomes(&self, given: Told) -> Vec<bool> {
        let hertz = self.0.hertz.number();
        let refused = |number: u32| given == Err(number);
        let is_small = hertz == 0.0 || hertz.is_subnormal();
        let heard = |is: fn(&Call, u32, f64) -> bool| {
            given.is_ok_and(|(tone, off)| is(&self.0, tone, off.number()))
        };
        vec![
            refused(15) && hertz.is_infinite(),
            refused(15) && hertz.is_nan(),
            refused(16) && self.band().is_below(hertz),
            refused(16) && self.band().is_above(hertz),
            heard(is_at_edge),
            heard(|_, _, off| off < 0.0),
            heard(|_, _, off| off == 0.0),
            heard(|_, _, off| off > 0.0),
            given.is_ok() && is_small,
            given.is_ok() && self.0.hertz == Bits::of(-0.0),
            heard(Call::is_rounded),
        ]
    }
}

fn is_at_edge(call: &Call, tone: u32, _: f64) -> bool {
    let band = Band::new(call.mode, call.width, call.centre);
    call.hertz.number() == band.edge(tone)
}

/// A measurement that is mostly in the band, or is any or a small one; or a wrong one, as asked.
fn hertz(random: &mut Random, band: &Band, wrong: &Wrong) -> f64 {
    if wrong.lead {
        return not_finite(random);
    }
    if wrong.content {
        return outside(random, band);
    }
    match random.below(6) {
        0 => any(random),
        1 => small(random),
        _ => inside(random, band),
    }
}
