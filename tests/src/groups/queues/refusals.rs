//! Blocks that are refused: each limit broken in several ways, by itself and with each later one.

use super::super::{expect_equal, Report};
use super::line::block;
use super::senders::{HandIn, Senders};
use std::collections::BTreeMap;

/// The checks in their order, each with the later ones that can fail too: nothing waits of a depot above 29.
const CHECKS: [(u32, &[u32]); 6] = [
    (1, &[5, 6, 17, 18, 19]),
    (5, &[6, 17, 18, 19]),
    (6, &[17, 18, 19]),
    (17, &[]),
    (18, &[19]),
    (19, &[]),
];

/// The depot that hands in, one that has 6 waiting where the sum is 150, and others, so many of which have 8 there.
const DEPOT: u32 = 12;
const WITH_6: u32 = 20;
const OTHERS: [u32; 7] = [0, 1, 5, 11, 13, 28, 29];

/// A block, and what waits when it is handed in.
#[derive(Clone, Debug)]
struct Call {
    handed: HandIn,
    /// The depot has 8 waiting.
    has_8: bool,
    /// The sum is 150, and the depot has at least 4 waiting.
    is_sum_150: bool,
}

impl Call {
    fn right(mode: u32) -> Self {
        Call {
            handed: block(DEPOT, mode),
            has_8: false,
            is_sum_150: false,
        }
    }

    /// How many wait, by depot.
    fn counts(&self) -> Vec<(u32, usize)> {
        let with_8 = |others: &[u32]| others.iter().map(|&depot| (depot, 8)).collect();
        match (self.has_8, self.is_sum_150) {
            (false, false) => vec![],
            (true, false) => vec![(DEPOT, 8)],
            (false, true) => [vec![(DEPOT, 4), (WITH_6, 6)], with_8(&OTHERS)].concat(),
            (true, true) => [vec![(DEPOT, 8), (WITH_6, 6)], with_8(&OTHERS[1..])].concat(),
        }
    }

    fn senders(&self) -> Result<Senders, String> {
        let mut senders = Senders::new()?;
        for (depot, count) in self.counts() {
            for mode in (1..=8).take(count) {
                let taken = senders.hand_in(&block(depot, mode))?;
                expect_equal("what waits", Ok(()), taken)?;
            }
        }
        Ok(senders)
    }

    /// The call is refused with this number, at the lowest wrong code, the depot, or 0.
    fn expect(&self, number: u32) -> Result<(), String> {
        let HandIn { depot, codes, .. } = &self.handed;
        let place = match number {
            6 => codes.iter().take_while(|&&code| code < 128).count() as u32,
            18 | 19 => *depot,
            _ => 0,
        };
        let met = self.senders().and_then(|mut senders| {
            let given = senders.hand_in(&self.handed)?;
            expect_equal("handed in", Err((number, place)), given)
        });
        met.map_err(|difference| format!("{self:?}: {difference}"))
    }

    fn with(&self, change: impl Fn(&mut Call)) -> Self {
        let mut call = self.clone();
        change(&mut call);
        call
    }

    /// The call with this limit broken, in each way. Some numbers are right in their last 8 or 16 bits.
    fn broken(&self, check: u32) -> Vec<Call> {
        let b = self.handed.codes.len();
        let mode = b as u32;
        match check {
            1 => [0, 9, 16, 256 + mode, 65_536 + mode, u32::MAX]
                .map(|mode| self.with(|call| call.handed.mode = mode))
                .to_vec(),
            5 => [0, b - 1, b + 1, 9, 16, 256 + b, 65_536 + b]
                .map(|count| self.with(|call| call.handed.codes.resize(count, 77)))
                .to_vec(),
            6 => self.with_wrong_codes(),
            17 => [30, 31, 255, 256 + DEPOT, 65_536 + DEPOT, u32::MAX]
                .map(|depot| self.with(|call| call.handed.depot = depot))
                .to_vec(),
            18 => vec![self.with(|call| call.has_8 = true)],
            _ => vec![self.with(|call| call.is_sum_150 = true)],
        }
    }

    /// With a wrong code at the first place, at the last, and at every one, if there are any.
    fn with_wrong_codes(&self) -> Vec<Call> {
        let Some(last) = self.handed.codes.len().checked_sub(1) else {
            return vec![];
        };
        let wrong = |places: std::ops::RangeInclusive<usize>, code: u8| {
            self.with(|call| call.handed.codes[places.clone()].fill(code))
        };
        vec![
            wrong(0..=0, 128),
            wrong(last..=last, 128),
            wrong(last..=last, 255),
            wrong(0..=last, 200),
        ]
    }
}

pub fn run() -> Report {
    let mut one: BTreeMap<u32, usize> = BTreeMap::new();
    let mut two: BTreeMap<(u32, u32), usize> = BTreeMap::new();
    for right in (1..=8).map(Call::right) {
        for (first, later) in CHECKS {
            for call in right.broken(first) {
                call.expect(first)?;
                *one.entry(first).or_default() += 1;
                for &later in later {
                    for call in call.broken(later) {
                        call.expect(first)?;
                        *two.entry((first, later)).or_default() += 1;
                    }
                }
            }
        }
    }
    let one: Vec<String> = one
        .iter()
        .map(|(number, count)| format!("{number}: {count}"))
        .collect();
    let two: Vec<String> = two
        .iter()
        .map(|((first, later), count)| format!("{first} before {later}: {count}"))
        .collect();
    Ok(format!(
        "blocks with one limit broken, {}\n  blocks with two, {}",
        one.join(", "),
        two.join(", ")
    ))
}
