//! Random calls of a sender.

use super::super::compare::block::codes_to_send;
use super::super::compare::draw::{self, Wrong};
use super::senders::HandIn;
use olivia_tests::paper::{DEPOTS, SYMBOLS};
use olivia_tests::random::Random;

/// How the depots of a run behave.
#[derive(Clone, Copy, Debug)]
pub enum Temper {
    /// As many blocks are handed in as are sent.
    Even,
    /// More are handed in, so that the sender is full.
    Crowded,
    /// Fewer are handed in, so that few wait or none.
    Idle,
    /// One depot hands in two of three.
    Greedy,
    /// All that come in come together, and then go out.
    Bursts,
    /// Few depots hand in.
    Few,
    /// The depots take turns, five in a row.
    Turns,
    /// Half of the calls are wrong.
    Careless,
}

pub const TEMPERS: [Temper; 8] = [
    Temper::Even,
    Temper::Crowded,
    Temper::Idle,
    Temper::Greedy,
    Temper::Bursts,
    Temper::Few,
    Temper::Turns,
    Temper::Careless,
];

/// Calls of a burst.
const BURST: usize = 170;

impl Temper {
    /// Whether the call of this number in its run hands in.
    pub fn hands_in(self, random: &mut Random, call: usize) -> bool {
        match self {
            Temper::Crowded | Temper::Turns => !random.one_in(4),
            Temper::Idle => random.one_in(4),
            Temper::Bursts => call / BURST % 2 == 0,
            Temper::Careless => random.below(3) > 0,
            Temper::Even | Temper::Greedy | Temper::Few => random.one_in(2),
        }
    }

    /// A depot that hands in with the call of this number, where one is the run's favourite.
    fn depot(self, random: &mut Random, call: usize, favourite: usize) -> usize {
        match self {
            Temper::Greedy if !random.one_in(3) => favourite,
            Temper::Few => (favourite + random.below(4) * 7) % DEPOTS,
            Temper::Turns => call / 5 % DEPOTS,
            _ => random.below(DEPOTS),
        }
    }

    /// Which limits a call breaks: one in twenty breaks some, of a careless run one in two.
    fn wrong(self, random: &mut Random) -> Wrong {
        let seldom = !matches!(self, Temper::Careless);
        if seldom && !random.one_in(10) {
            return Wrong::default();
        }
        Wrong::draw(random)
    }

    pub fn hand_in(self, random: &mut Random, call: usize, favourite: usize) -> HandIn {
        let wrong = self.wrong(random);
        let depot = self.depot(random, call, favourite);
        hand_in(random, depot, &wrong)
    }

    /// The length of the output of a send.
    pub fn room(self, random: &mut Random) -> usize {
        let wrong = self.wrong(random);
        draw::room(random, SYMBOLS, wrong.room)
    }
}

/// A random block of the depot, of any mode, wrong as asked; it is the depot that is wrong in place of a set lead.
pub fn hand_in(random: &mut Random, depot: usize, wrong: &Wrong) -> HandIn {
    let b = random.between(1, 8);
    HandIn {
        depot: if wrong.lead {
            wrong_depot(random)
        } else {
            depot as u32
        },
        mode: draw::mode(random, b, wrong.mode),
        codes: codes_to_send(random, b, wrong),
    }
}

/// A depot above 29.
fn wrong_depot(random: &mut Random) -> u32 {
    match random.below(4) {
        0 => random.pick(&[31, 32, 127, 128, 255, 256, 65_536, 1 << 31, u32::MAX]),
        1 => 256 + random.below(DEPOTS) as u32,
        2 => random.between(DEPOTS, u32::MAX as usize) as u32,
        _ => 30,
    }
}
