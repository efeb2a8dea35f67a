//! Thirty stations, one transmitter: order 7 of document 02.

use super::refusals::{checked_mode, refusal, require, require_each, Refusal};
use super::sending::block_tones;
use super::SYMBOLS;
use std::collections::VecDeque;

/// "Thirty depots (0 to 29) hand blocks to one sender with 150 places."
pub const DEPOTS: usize = 30;
pub const PLACES: usize = 150;

/// "A block is taken if its depot has under 8."
pub const MOST_WAITING: usize = 8;

/// "The sum over all depots of the larger of 4 and its waiting blocks is at most 150."
pub const KEPT: usize = 4;

/// A block as it was handed in.
#[derive(Clone, Debug, PartialEq, Eq)]
pub struct Block {
    pub mode: usize,
    pub codes: Vec<u8>,
}

/// "It sends that depot's oldest block, in the mode it was handed in with, returns depot and mode."
#[derive(Clone, Debug, PartialEq, Eq)]
pub struct Sent {
    pub depot: usize,
    pub mode: usize,
    pub tones: Vec<u16>,
}

/// A queue for each depot, its oldest block at the front, and the depot that was served last.
#[derive(Clone, Debug, Default)]
pub struct Sender {
    queues: [VecDeque<Block>; DEPOTS],
    last_served: Option<usize>,
}

impl Sender {
    /// "Mode and block checks come first." "17, depot above 29, place 0; 18, depot has 8, place is the depot; 19, the shared sum
    /// would pass 150, place is the depot; in this order, after 6."
    pub fn hand_in(&mut self, depot: u32, mode: u32, codes: &[u8]) -> Result<(), Refusal> {
        let b = checked_mode(mode)?;
        require(codes.len() == b, 5)?;
        require_each(codes, |code| code >= 128, 6)?;
        let depot = depot as usize;
        require(depot < DEPOTS, 17)?;
        if self.queues[depot].len() >= MOST_WAITING {
            return Err(refusal(18, depot));
        }
        if self.sum_with(depot) > PLACES {
            return Err(refusal(19, depot));
        }
        self.queues[depot].push_back(Block {
            mode: b,
            codes: codes.to_vec(),
        });
        Ok(())
    }

    /// The shared sum "after taking" one more block of this depot.
    fn sum_with(&self, depot: usize) -> usize {
        let after = |other: usize| self.queues[other].len() + usize::from(other == depot);
        (0..DEPOTS).map(|other| after(other).max(KEPT)).sum()
    }

    /// "A send with an output under 64 tones is refused with 9 before anything else and takes no block out." "'None waiting' is given
    /// only if every depot has none, and writes nothing."
    pub fn send(&mut self, room: usize) -> Result<Option<Sent>, Refusal> {
        require(room >= SYMBOLS, 9)?;
        let Some(depot) = self.next_served() else {
            return Ok(None);
        };
        let oldest = self.queues[depot].pop_front();
        let Block { mode, codes } = oldest.expect("a block of the depot that is served");
        self.last_served = Some(depot);
        let tones = block_tones(mode, &codes);
        Ok(Some(Sent { depot, mode, tones }))
    }

    /// "Sending goes round: the first depot with a block, looking from the one after the last served."
    fn next_served(&self) -> Option<usize> {
        let from = self.first_looked_at();
        let mut round = (0..DEPOTS).map(|step| (from + step) % DEPOTS);
        round.find(|&depot| !self.queues[depot].is_empty())
    }

    /// "The one after the last served, from 0 when new, 29 followed by 0."
    pub fn first_looked_at(&self) -> usize {
        self.last_served.map_or(0, |depot| (depot + 1) % DEPOTS)
    }

    /// The blocks of a depot that wait, the oldest first.
    pub fn queue(&self, depot: usize) -> &VecDeque<Block> {
        &self.queues[depot]
    }
}
