//! Blocks decoded with weights.

use super::super::damage::AIMS;
use super::super::lent::Lent;
use super::super::weighing::{damages, weighed, Weighed, SHARES};
use super::super::{block_of, expect_equal, written};
use super::block::tones_to_hear;
use super::draw::{self, Wrong};
use super::{records, Met, Order};
use olivia_tests::library;
use olivia_tests::paper::{self, GREATEST_LEAD, GREATEST_WEIGHT, MISSING, SYMBOLS};
use olivia_tests::random::Random;

/// A set lead from 1 to 960, often at an end or a multiple of 15, or outside.
pub fn least_lead(random: &mut Random, wrong: bool) -> u32 {
    let any = random.between(1, GREATEST_LEAD as usize) as u32;
    match (wrong, random.below(4)) {
        (false, 0) => random.pick(&[1, 2, 15, 16, 64, 65, 255, 256, 959, 960]),
        (false, 1) => 15 * random.between(1, 64) as u32,
        (false, _) => any,
        (true, 0) => random.pick(&[0, 65_536 + any, u32::MAX]),
        (true, 1) => random.between(961, u32::MAX as usize) as u32,
        (true, _) => random.pick(&[0, 961, 962, 975, 1024, 14_400]),
    }
}

/// What is heard of a block: at a bound of demand 3 by its tones and weights together, or by its tones alone, with any weights. A
/// count or a content is wrong as asked, of the tones and of the weights.
pub fn heard(
    random: &mut Random,
    b: usize,
    text: &[u8],
    least_lead: u32,
    wrong_tones: &Wrong,
    wrong_weights: &Wrong,
) -> Weighed {
    let mut heard = if random.one_in(2) {
        let damages = damages(least_lead.clamp(1, GREATEST_LEAD) as usize);
        let (share, aim) = (random.pick(&SHARES), random.pick(&AIMS));
        let damage = random.pick(&damages);
        let mut heard = weighed(random, b, text, damage, share, aim);
        draw::spoil_tones(random, b, &mut heard.tones, wrong_tones);
        heard
    } else {
        Weighed {
            tones: tones_to_hear(random, b, text, least_lead / 15, wrong_tones),
            weights: right_weights(random),
        }
    };
    if wrong_weights.content {
        spoil_weights(random, &mut heard);
    }
    if wrong_weights.count {
        let count = draw::wrong_length(random, SYMBOLS);
        heard.weights = heard.weights.repeat(4);
        heard.weights.truncate(count);
    }
    heard
}

/// 64 weights from 0 to 15: all alike, few or half of them low, or any.
pub fn right_weights(random: &mut Random) -> Vec<u8> {
    let any = |random: &mut Random| random.between(0, GREATEST_WEIGHT.into()) as u8;
    let alike = any(random);
    let kind = random.below(8);
    let weight = |random: &mut Random| match kind {
        0 => 0,
        1 => GREATEST_WEIGHT,
        2 => alike,
        3 => random.pick(&[0, GREATEST_WEIGHT]),
        4 if random.one_in(8) => any(random),
        4 => GREATEST_WEIGHT,
        _ => any(random),
    };
    (0..SYMBOLS).map(|_| weight(random)).collect()
}

/// One wrong weight, one to three, half of them all, or one at a missing tone.
fn spoil_weights(random: &mut Random, heard: &mut Weighed) {
    let place = random.below(SYMBOLS);
    match random.below(4) {
        0 => heard.weights[place] = random.pick(&[16, 255]),
        1 => draw::spoil(random, &mut heard.weights, wrong_weight),
        2 => {
            for weight in &mut heard.weights {
                if random.one_in(2) {
                    *weight = wrong_weight(random);
                }
            }
        }
        _ => {
            if let Some(tone) = heard.tones.get_mut(place) {
                *tone = MISSING;
            }
            heard.weights[place] = wrong_weight(random);
        }
    }
}

/// A weight above 15.
pub fn wrong_weight(random: &mut Random) -> u8 {
    match random.below(3) {
        0 => 16,
        1 => random.pick(&[17, 31, 32, 127, 128, 240, 255]),
        _ => random.between(16, 255) as u8,
    }
}

#[derive(Debug)]
pub struct Decode {
    mode: u32,
    least_lead: u32,
    heard: Weighed,
    room: usize,
}

impl super::Case for Decode {
    const FUNCTION: &'static str = "decode_weighted";
    const REFUSALS: &'static [u32] = &[1, 2, 7, 8, 9, 10, 14];
    const ORDERS: &'static [Order] = &[
        (1, 2),
        (1, 7),
        (1, 14),
        (2, 7),
        (2, 9),
        (2, 8),
        (2, 14),
        (7, 9),
        (7, 8),
        (7, 14),
        (9, 8),
        (9, 14),
        (9, 10),
        (8, 14),
        (14, 10),
    ];

    fn draw(random: &mut Random) -> Self {
        let (wrong, wrong_weights) = (Wrong::draw(random), Wrong::draw(random));
        let b = random.between(1, 8);
        let text: Vec<u8> = (0..b).map(|_| random.code()).collect();
        let least_lead = least_lead(random, wrong.lead);
        Decode {
            mode: draw::mode(random, b, wrong.mode),
            least_lead,
            heard: heard(random, b, &text, least_lead, &wrong, &wrong_weights),
            room: draw::room(random, b, wrong.room),
        }
    }

    fn mode(&self) -> u32 {
        self.mode
    }

    fn compare(&self) -> Result<Met, String> {
        let mut tones = Lent::input(&self.heard.tones);
        let mut weights = Lent::input(&self.heard.weights);
        let mut codes = Lent::output(self.room);
        let given = library::decode_weighted(
            self.mode,
            self.least_lead,
            tones.part(),
            weights.part(),
            codes.part(),
        );
        let said = self.said(&self.heard.weights, self.room);
        expect_equal("answer", block_of(&said), given)?;
        codes.expect("codes", written(&said.text))?;
        tones.expect("tones handed in", &self.heard.tones)?;
        weights.expect("weights handed in", &self.heard.weights)?;
        Ok(Met {
            records: records::kinds(&said, &self.heard.tones, &self.heard.weights),
            orders: self.orders(given.answer.number),
            ..Met::numbers(&[given.answer.number])
        })
    }
}

impl Decode {
    fn said(&self, weights: &[u8], room: usize) -> paper::Heard {
        paper::decode_weighted(self.mode, self.least_lead, &self.heard.tones, weights, room)
    }

    /// The refusal with each other whose limit is broken too.
    fn orders(&self, number: u32) -> Vec<Order> {
        match number {
            0 | 10 => vec![],
            _ => self
                .broken()
                .into_iter()
                .filter(|&later| later != number)
                .map(|later| (number, later))
                .collect(),
        }
    }

    /// The limits that are broken, each judged alone: room and tones if there is a mode, and clearness by weights cut to 15.
    fn broken(&self) -> Vec<u32> {
        let Weighed { tones, weights } = &self.heard;
        let b = self.mode as usize;
        let is_mode = (1..=8).contains(&b);
        let is_wrong = |&tone: &u16| usize::from(tone) >= paper::tone_count(b) && tone != MISSING;
        let cut: Vec<u8> = weights.iter().map(|&weight| weight.min(15)).collect();
        let answer = self.said(&cut, SYMBOLS).text;
        let limits = [
            (2, !(1..=960).contains(&self.least_lead)),
            (7, tones.len() != SYMBOLS || weights.len() != SYMBOLS),
            (9, is_mode && self.room < b),
            (8, is_mode && tones.iter().any(is_wrong)),
            (14, weights.iter().any(|&weight| weight > 15)),
            (10, answer.is_err_and(|refusal| refusal.number == 10)),
        ];
        let broken = limits.into_iter().filter(|limit| limit.1);
        broken.map(|limit| limit.0).collect()
    }
}
