//! Blocks as newer boards hear them: damage of a chosen D, by tones replaced or missing and by low weights.

use super::damage::Aim;
use olivia_tests::paper::{self, GREATEST_WEIGHT, SYMBOLS};
use olivia_tests::random::Random;

/// What a right tone of weight 0, a missing one, and a replaced one of weight 0 add to D.
const NOTHING_HEARD: usize = GREATEST_WEIGHT as usize;

/// What a replaced tone of weight 15 adds.
const MOST: usize = 2 * NOTHING_HEARD;

/// A block's tones as heard, each with its weight.
#[derive(Clone, Debug)]
pub struct Weighed {
    pub tones: Vec<u16>,
    pub weights: Vec<u8>,
}

/// How much of the damage a place takes, as long as some is left.
#[derive(Clone, Copy, Debug)]
pub enum Share {
    /// All that it can: replaced with weight 15.
    Whole,
    /// What a tone that is not heard takes.
    Half,
    /// None, half or all, as without weights.
    Plain,
    /// Any.
    Any,
    /// About the same as every other.
    Even,
}

pub const SHARES: [Share; 5] = [
    Share::Whole,
    Share::Half,
    Share::Plain,
    Share::Any,
    Share::Even,
];

impl Share {
    fn draw(self, random: &mut Random, damage: usize) -> usize {
        match self {
            Share::Whole => MOST,
            Share::Half => NOTHING_HEARD,
            Share::Plain => random.pick(&[0, NOTHING_HEARD, MOST]),
            Share::Any => random.between(0, MOST),
            Share::Even => damage.div_ceil(SYMBOLS),
        }
    }
}

/// The D at each bound of demand 3: the last within it, the one before that, and the first beyond.
pub fn damages(least_lead: usize) -> Vec<usize> {
    let mut damages = vec![];
    for within in [paper::keeps_text, paper::shuts_out_others] {
        let last = (0..=SYMBOLS * MOST).rfind(|&damage| within(damage, least_lead));
        let last = last.expect("a set lead from 1 to 960, which a whole block reaches");
        damages.extend(last.saturating_sub(1)..=last + 1);
    }
    damages
}

/// A block with these codes, so damaged.
pub fn weighed(
    random: &mut Random,
    b: usize,
    codes: &[u8],
    damage: usize,
    share: Share,
    aim: Aim,
) -> Weighed {
    let q = random.below(b);
    let places = aim.places(random, codes[q]);
    let mut tones = paper::block_tones(b, codes);
    let mut weights = vec![0; SYMBOLS];
    for (t, cost) in places.into_iter().zip(costs(random, damage, share)) {
        let (heard, weight) = Heard::draw(random, cost);
        weights[t] = weight;
        match heard {
            Heard::Right => {}
            Heard::Missing => tones[t] = paper::MISSING,
            Heard::Replaced => tones[t] = aim.replaced(random, b, q, t, tones[t]),
        }
    }
    Weighed { tones, weights }
}

/// What each place adds to D. What the shares leave goes to the first places that can take more.
fn costs(random: &mut Random, damage: usize, share: Share) -> Vec<usize> {
    let mut left = damage;
    let mut costs = vec![0; SYMBOLS];
    for cost in &mut costs {
        *cost = share.draw(random, damage).min(left);
        left -= *cost;
    }
    for cost in &mut costs {
        let more = left.min(MOST - *cost);
        *cost += more;
        left -= more;
    }
    costs
}

#[derive(Clone, Copy)]
enum Heard {
    Right,
    Missing,
    Replaced,
}

impl Heard {
    /// How a tone that adds so much to D is heard, and its weight; that of a missing one is any.
    fn draw(random: &mut Random, cost: usize) -> (Self, u8) {
        let heard = match cost {
            ..NOTHING_HEARD => Heard::Right,
            NOTHING_HEARD => random.pick(&[Heard::Right, Heard::Missing, Heard::Replaced]),
            _ => Heard::Replaced,
        };
        let weight = match heard {
            Heard::Right => NOTHING_HEARD - cost,
            Heard::Missing => random.between(0, GREATEST_WEIGHT.into()),
            Heard::Replaced => cost - NOTHING_HEARD,
        };
        (heard, weight as u8)
    }
}
