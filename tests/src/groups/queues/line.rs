//! Senders to which blocks of every mode are handed, one after the other, and what each call has to come to.

use super::super::expect_equal;
use super::senders::{HandIn, Senders};
use olivia_tests::paper::SYMBOLS;
use std::ops::Range;

/// A block of this mode, other than those of other depots and modes.
pub fn block(depot: u32, mode: u32) -> HandIn {
    let code = |q: u32| (depot * 31 + mode * 8 + q * 45) % 128;
    HandIn {
        depot,
        mode,
        codes: (0..mode).map(|q| code(q) as u8).collect(),
    }
}

pub struct Line {
    senders: Senders,
    handed: u32,
}

impl Line {
    pub fn new() -> Result<Self, String> {
        Ok(Line {
            senders: Senders::new()?,
            handed: 0,
        })
    }

    /// A block of the depot, of the next mode.
    fn next(&mut self, depot: u32) -> HandIn {
        self.handed += 1;
        block(depot % 30, 1 + self.handed % 8)
    }

    /// Each of these depots hands in a block, which is taken.
    pub fn take(&mut self, depots: impl IntoIterator<Item = u32>) -> Result<(), String> {
        for depot in depots {
            let handed = self.next(depot);
            let what = format!("a block of depot {depot}");
            expect_equal(&what, Ok(()), self.senders.hand_in(&handed)?)?;
        }
        Ok(())
    }

    /// A right block of the depot is refused with this number: 17, or 18 or 19, whose place is the depot.
    pub fn expect_refused(&mut self, depot: u32, number: u32) -> Result<(), String> {
        let handed = HandIn {
            depot,
            ..self.next(depot)
        };
        let place = if number == 17 { 0 } else { depot };
        let what = format!("a block of depot {depot}");
        let given = self.senders.hand_in(&handed)?;
        expect_equal(&what, Err((number, place)), given)
    }

    /// So many blocks of the depot are taken, and the next ones are refused with these numbers.
    pub fn hand_in(&mut self, depot: u32, taken: usize, refused: &[u32]) -> Result<(), String> {
        self.take(std::iter::repeat_n(depot, taken))?;
        for &number in refused {
            self.expect_refused(depot, number)?;
        }
        Ok(())
    }

    /// The next sends serve these depots.
    pub fn expect_sent(&mut self, depots: impl IntoIterator<Item = u32>) -> Result<(), String> {
        for depot in depots {
            let sent = self.senders.send(SYMBOLS)?;
            let given = sent.map(|sent| sent.map(|(depot, _)| depot));
            expect_equal("depot served", Ok(Some(depot)), given)?;
        }
        Ok(())
    }

    pub fn expect_none(&mut self) -> Result<(), String> {
        expect_equal("none waiting", Ok(None), self.senders.send(SYMBOLS)?)
    }

    /// Outputs of 0, 1 and 63 tones are refused.
    pub fn expect_short(&mut self) -> Result<(), String> {
        for room in [0, 1, SYMBOLS - 1] {
            let what = format!("an output of {room} tones");
            expect_equal(&what, Err((9, 0)), self.senders.send(room)?)?;
        }
        Ok(())
    }

    pub fn expect_waiting(&self, count: usize) -> Result<(), String> {
        expect_equal("blocks waiting", count, self.senders.count())
    }

    /// All that waits is sent: so many times round each of these stretches of depots, one stretch after the other.
    pub fn expect_rounds<const STRETCHES: usize>(
        &mut self,
        stretches: [(Range<u32>, usize); STRETCHES],
    ) -> Result<(), String> {
        for (depots, rounds) in stretches {
            for _ in 0..rounds {
                self.expect_sent(depots.clone())?;
            }
        }
        self.expect_none()
    }
}
