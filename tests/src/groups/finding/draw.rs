//! Random runs: noise, blocks among noise, and runs that break a limit.

use super::super::compare::draw::{self, Wrong};
use super::super::compare::range::spoil;
use super::super::damage::{damaged, edges, Amount, AIMS};
use olivia_tests::paper::{block_tones, LONGEST_RUN, SYMBOLS};
use olivia_tests::random::Random;

/// One run in so many is as long as one may be.
const LONG_ONE_IN: usize = 16;

/// The longest of the others.
pub const SHORT: usize = 400;

/// A block that keeps demand 3's first bound, and its start in the run.
#[derive(Clone, Debug)]
pub struct Sent {
    pub start: usize,
    pub text: Vec<u8>,
}

/// A set lead, often one that noise reaches.
pub fn least_lead(random: &mut Random, wrong: bool) -> u32 {
    if !wrong && random.one_in(3) {
        random.between(1, 6) as u32
    } else {
        draw::least_lead(random, wrong)
    }
}

/// A run of noise with none, one or two blocks in it, of a wrong length or with bad tones as asked.
pub fn run(random: &mut Random, b: usize, least_lead: u32, wrong: &Wrong) -> (Vec<u16>, Vec<Sent>) {
    let length = length(random, wrong.count);
    let mut run = draw::noise(random, b, length);
    let mut sent = vec![];
    for start in starts(random, length) {
        let text: Vec<u8> = (0..b).map(|_| random.code()).collect();
        let heard = heard(random, b, &text, least_lead);
        run[start..start + SYMBOLS].copy_from_slice(&heard);
        sent.push(Sent { start, text });
    }
    if wrong.content {
        spoil(random, b, &mut run);
    }
    (run, sent)
}

fn length(random: &mut Random, wrong: bool) -> usize {
    let any = random.between(SYMBOLS, SHORT);
    match (wrong, random.one_in(LONG_ONE_IN)) {
        (true, _) => random.pick(&[0, SYMBOLS - 1, SYMBOLS - 1, LONGEST_RUN + 1]),
        (false, true) => LONGEST_RUN,
        (false, false) => random.pick(&[64, 65, 127, 128, any, any]),
    }
}

/// Where blocks begin: none, one at an end or at any place, or two with no tone in common.
fn starts(random: &mut Random, length: usize) -> Vec<usize> {
    let Some(last) = length.checked_sub(SYMBOLS) else {
        return vec![];
    };
    match random.below(4) {
        0 => vec![],
        1 if last >= SYMBOLS => {
            let first = random.between(0, last - SYMBOLS);
            vec![first, random.between(first + SYMBOLS, last)]
        }
        _ => {
            let any = random.between(0, last);
            vec![random.pick(&[0, last, any, any])]
        }
    }
}

/// A block as heard: clean, or with as much damage as the bound allows.
fn heard(random: &mut Random, b: usize, text: &[u8], least_lead: u32) -> Vec<u16> {
    let keeps_text = |amount: Amount| amount.keeps_text(least_lead.clamp(1, 64) as usize);
    let amounts: Vec<Amount> = edges(keeps_text)
        .into_iter()
        .filter(|&amount| keeps_text(amount))
        .collect();
    if random.one_in(3) {
        return block_tones(b, text);
    }
    let (amount, aim) = (random.pick(&amounts), random.pick(&AIMS));
    damaged(random, b, text, amount, aim)
}
