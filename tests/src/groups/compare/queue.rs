//! A block handed to a sender, of one of several fillings, and then a send.

use super::super::expect_equal;
use super::super::queues::draw::hand_in;
use super::super::queues::senders::{HandIn, Senders};
use super::draw::{self, Wrong};
use super::{Met, Order};
use olivia_tests::paper::{DEPOTS, KEPT, MOST_WAITING, PLACES, SYMBOLS};
use olivia_tests::random::Random;

#[derive(Debug)]
pub struct HandInAndSend {
    /// Blocks that are handed in before, of which the first is sent at once, so that the turn is anywhere.
    before: Vec<HandIn>,
    handed: HandIn,
    room: usize,
}

impl super::Case for HandInAndSend {
    const FUNCTION: &'static str = "hand_in and send";
    const REFUSALS: &'static [u32] = &[1, 5, 6, 9, 17, 18, 19];
    const ORDERS: &'static [Order] = &[
        (1, 5),
        (1, 6),
        (1, 17),
        (1, 18),
        (1, 19),
        (5, 6),
        (5, 17),
        (5, 18),
        (5, 19),
        (6, 17),
        (6, 18),
        (6, 19),
        (18, 19),
    ];
    const OUTCOMES: &'static [&'static str] = &[
        "taken at a sum of 150",
        "19 with places free",
        "sent after a refusal",
        "none waiting",
        "9 with none waiting",
    ];

    fn draw(random: &mut Random) -> Self {
        let wrong = Wrong::draw(random);
        let depots = random.shuffled(DEPOTS);
        let depot = random.pick(&depots[..12]);
        HandInAndSend {
            before: before(random, &depots),
            handed: hand_in(random, depot, &wrong),
            room: draw::room(random, SYMBOLS, wrong.room),
        }
    }

    fn mode(&self) -> u32 {
        self.handed.mode
    }

    fn compare(&self) -> Result<Met, String> {
        let mut senders = self.senders()?;
        let broken = self.broken(&senders);
        let (sum, count) = (senders.sum(), senders.count());
        let number = senders
            .hand_in(&self.handed)?
            .map_or_else(|refused| refused.0, |()| 0);
        let is_empty = senders.count() == 0;
        let sent = senders.send(self.room)?;
        let short = sent.map_or_else(|refused| refused.0, |_| 0);
        Ok(Met {
            orders: orders(number, &broken),
            outcomes: vec![
                number == 0 && sum == PLACES,
                number == 19 && count < PLACES,
                number > 0 && matches!(sent, Ok(Some(_))),
                sent == Ok(None),
                short == 9 && is_empty,
            ],
            ..Met::numbers(&[number, short])
        })
    }
}

impl HandInAndSend {
    fn senders(&self) -> Result<Senders, String> {
        let mut senders = Senders::new()?;
        for (place, block) in self.before.iter().enumerate() {
            expect_equal("taken before", Ok(()), senders.hand_in(block)?)?;
            if place == 0 {
                expect_equal("sent before", true, senders.send(SYMBOLS)?.is_ok())?;
            }
        }
        Ok(senders)
    }

    /// The limits of block, depot and places that are broken, each judged alone; without a mode a count is wrong if it is so in every
    /// mode.
    fn broken(&self, senders: &Senders) -> Vec<u32> {
        let HandIn { depot, mode, codes } = &self.handed;
        let is_count = match mode {
            1..=8 => codes.len() == *mode as usize,
            _ => (1..=8).contains(&codes.len()),
        };
        let waiting = senders.count_of(*depot);
        let has = |least: usize| waiting.is_some_and(|count| count >= least);
        let limits = [
            (5, !is_count),
            (6, codes.iter().any(|&code| code >= 128)),
            (17, waiting.is_none()),
            (18, has(MOST_WAITING)),
            (19, has(KEPT) && senders.sum() == PLACES),
        ];
        let broken = limits.into_iter().filter(|limit| limit.1);
        broken.map(|limit| limit.0).collect()
    }
}

/// The refusal with each later one whose limit is broken too.
fn orders(number: u32, broken: &[u32]) -> Vec<Order> {
    let later = broken.iter().filter(|&&later| later > number);
    match number {
        0 => vec![],
        _ => later.map(|&later| (number, later)).collect(),
    }
}

/// A block of any depot, and then none, few, as many as a depot may have, or as many as all may, shared evenly or not.
fn before(random: &mut Random, depots: &[usize]) -> Vec<HandIn> {
    let any = random.between(0, KEPT);
    let counts = match random.below(6) {
        0 => vec![],
        1 => vec![1, any],
        2 => vec![MOST_WAITING; 4],
        3 => vec![KEPT + 1; DEPOTS],
        4 => [vec![8; 7], vec![6], vec![any; DEPOTS - 8]].concat(),
        _ => [vec![KEPT; 5], vec![8; 7], vec![6]].concat(),
    };
    let by_depot = depots.iter().zip(counts);
    let waiting = by_depot.flat_map(|(&depot, count)| vec![depot; count]);
    let first = random.below(DEPOTS);
    let all: Vec<usize> = [first].into_iter().chain(waiting).collect();
    let right = Wrong::default();
    all.into_iter()
        .map(|depot| hand_in(random, depot, &right))
        .collect()
}
