//! Blocks, plain and with weights.

use super::super::compare::draw;
use super::super::compare::{block::tones_to_hear, weighted as weighing};
use super::super::lent::Lent;
use super::super::tally::Tally;
use super::super::weighing::Weighed;
use super::super::{expect_equal, Report};
use super::{chain, raise, wrong};
use olivia_tests::library::{self, Block};
use olivia_tests::paper::{self, GREATEST_LEAD};
use olivia_tests::random::Random;

/// Blocks of each mode.
const REPEATS: usize = 1000;

/// Of the steps from one set lead to the next.
const KINDS: [&str; 5] = [
    "text stays",
    "text turns into 10",
    "10 stays",
    "10 at an earlier place",
    "another refusal stays",
];

/// An entry with its input, all but the set lead.
#[derive(Debug)]
struct Case {
    mode: u32,
    tones: Vec<u16>,
    weights: Option<Vec<u8>>,
    room: usize,
    leads: Vec<u32>,
}

/// An answer with its records, and the codes written.
#[derive(Clone, Debug, PartialEq)]
struct Given {
    block: Block,
    codes: Vec<u8>,
}

pub fn plain(random: &mut Random) -> Report {
    many(random, Case::plain, "steps of plain blocks")
}

pub fn weighted(random: &mut Random) -> Report {
    many(random, Case::weighted, "steps of weighted blocks")
}

fn many(random: &mut Random, draw: fn(&mut Random, usize) -> Case, what: &str) -> Report {
    let mut tally = Tally::new(KINDS);
    for b in (1..=8).flat_map(|b| [b; REPEATS]) {
        let case = draw(random, b);
        let met = case.run(&mut tally);
        met.map_err(|difference| format!("{case:?}: {difference}"))?;
    }
    tally.expect_often()?;
    Ok(format!("{} blocks, {}", 8 * REPEATS, tally.line(what)))
}

impl Case {
    fn plain(random: &mut Random, b: usize) -> Self {
        let wrong = wrong(random);
        let text: Vec<u8> = (0..b).map(|_| random.code()).collect();
        let least_lead = draw::least_lead(random, false);
        let tones = tones_to_hear(random, b, &text, least_lead, &wrong);
        let leads = leads_of(&paper::decode_block(b as u32, 1, &tones, b));
        Case {
            mode: draw::mode(random, b, wrong.mode),
            tones,
            weights: None,
            room: draw::room(random, b, wrong.room),
            leads: chain(random, 64, &[leads, vec![least_lead]].concat()),
        }
    }

    fn weighted(random: &mut Random, b: usize) -> Self {
        let (wrong, wrong_weights) = (wrong(random), wrong(random));
        let text: Vec<u8> = (0..b).map(|_| random.code()).collect();
        let least_lead = weighing::least_lead(random, false);
        let Weighed { tones, weights } =
            weighing::heard(random, b, &text, least_lead, &wrong, &wrong_weights);
        let leads = leads_of(&paper::decode_weighted(b as u32, 1, &tones, &weights, b));
        Case {
            mode: draw::mode(random, b, wrong.mode),
            tones,
            weights: Some(weights),
            room: draw::room(random, b, wrong.room),
            leads: chain(random, GREATEST_LEAD, &[leads, vec![least_lead]].concat()),
        }
    }

    fn run(&self, tally: &mut Tally<{ KINDS.len() }>) -> Result<(), String> {
        let hear = |least_lead| self.hear(least_lead);
        raise(&self.leads, hear, |least_lead, before, after| {
            tally.add(step(least_lead, before, after)?);
            Ok(())
        })
    }

    /// What is heard at this set lead. A refusal leaves the output as it was.
    fn hear(&self, least_lead: u32) -> Result<Given, String> {
        let mut tones = Lent::input(&self.tones);
        let mut output = Lent::output(self.room);
        let (lent, codes) = (tones.part(), output.part());
        let block = match &self.weights {
            None => library::decode_block(self.mode, least_lead, lent, codes),
            Some(weights) => library::decode_weighted(self.mode, least_lead, lent, weights, codes),
        };
        let count = self.room.min(block.answer.count as usize);
        let codes = output.part()[..count].to_vec();
        output.expect("codes", &codes)?;
        tones.expect("tones handed in", &self.tones)?;
        Ok(Given { block, codes })
    }
}

/// What becomes of an answer at a greater set lead: it stays, or a text turns into 10, or 10 goes to an earlier place.
fn step(least_lead: u32, before: &Given, after: &Given) -> Result<[bool; KINDS.len()], String> {
    let (low, high) = (before.block.answer, after.block.answer);
    let stays = before == after;
    let turns = (low.number, high.number) == (0, 10);
    let is_earlier = (low.number, high.number) == (10, 10) && high.place < low.place;
    if turns || is_earlier {
        expect_unclear(least_lead, before, after)?;
    } else {
        expect_equal("answer, records and codes", before, after)?;
    }
    Ok([
        stays && low.number == 0,
        turns,
        stays && low.number == 10,
        is_earlier,
        stays && ![0, 10].contains(&low.number),
    ])
}

/// The records stay, the lead told is that of the character at the place, and nothing is written.
fn expect_unclear(least_lead: u32, before: &Given, after: &Given) -> Result<(), String> {
    let Given { block, codes } = after;
    expect_equal("records", before.block.characters, block.characters)?;
    let record = block.characters[block.answer.place as usize];
    expect_equal("lead told", record.lead, block.answer.lead)?;
    expect_equal("a lead below m", true, record.lead < least_lead)?;
    let count = (block.answer.count, codes.len());
    expect_equal("codes written", (0, 0), count)
}

/// The leads of the characters, none if the block is refused before they are decided.
fn leads_of(heard: &paper::Heard) -> Vec<u32> {
    let characters = heard.characters.iter();
    characters.map(|character| character.lead).collect()
}
