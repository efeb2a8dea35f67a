//! Messages. A refusal for the text, 11 or 12, turns into 10 too, since clearness is checked before it.

use super::super::compare::draw;
use super::super::compare::message::{codes_on_the_air, wrong_count};
use super::super::lent::Lent;
use super::super::tally::Tally;
use super::super::{expect_equal, Report};
use super::{chain, raise, wrong};
use olivia_tests::library::{self, Answer};
use olivia_tests::paper::{block_count, block_tones, LONGEST_MESSAGE, SYMBOLS};
use olivia_tests::random::Random;

/// Messages of each mode.
const REPEATS: usize = 600;

/// One message in so many has a text over 1,024 codes, in the modes in which the last block has room for them.
const OVER_ONE_IN: usize = 4;

/// Of the steps from one set lead to the next.
const KINDS: [&str; 9] = [
    "text stays",
    "text turns into 10",
    "11 stays",
    "11 turns into 10",
    "12 stays",
    "12 turns into 10",
    "10 stays",
    "10 at an earlier place",
    "another refusal stays",
];

#[derive(Debug)]
struct Case {
    mode: u32,
    tones: Vec<u16>,
    room: usize,
    leads: Vec<u32>,
}

/// An answer, and the text written.
#[derive(Clone, Debug, PartialEq)]
struct Given {
    answer: Answer,
    text: Vec<u8>,
}

pub fn run(random: &mut Random) -> Report {
    let mut tally = Tally::new(KINDS);
    for b in (1..=8).flat_map(|b| [b; REPEATS]) {
        let case = Case::draw(random, b);
        let met = case.run(&mut tally);
        met.map_err(|difference| format!("{case:?}: {difference}"))?;
    }
    tally.expect_often()?;
    let line = tally.line("steps of messages");
    Ok(format!("{} messages, {line}", 8 * REPEATS))
}

impl Case {
    fn draw(random: &mut Random, b: usize) -> Self {
        let wrong = wrong(random);
        let least_lead = draw::least_lead(random, false);
        let codes = codes(random, b);
        let mut tones = tones_on_the_air(random, b, &codes, least_lead);
        if wrong.content {
            draw::spoil(random, &mut tones, |random| draw::wrong_tone(random, b));
        }
        if wrong.count {
            tones.resize(wrong_count(random, b, tones.len()), 0);
        }
        Case {
            mode: draw::mode(random, b, wrong.mode),
            room: draw::room(random, b * (tones.len() / SYMBOLS), wrong.room),
            tones,
            leads: chain(random, 64, &[least_lead]),
        }
    }

    fn run(&self, tally: &mut Tally<{ KINDS.len() }>) -> Result<(), String> {
        let hear = |least_lead| self.hear(least_lead);
        raise(&self.leads, hear, |least_lead, before, after| {
            tally.add(step(least_lead, before, after)?);
            Ok(())
        })
    }

    /// What is heard at this set lead. A refusal leaves the output as it was.
    fn hear(&self, least_lead: u32) -> Result<Given, String> {
        let mut tones = Lent::input(&self.tones);
        let mut output = Lent::output(self.room);
        let answer = library::decode_message(self.mode, least_lead, tones.part(), output.part());
        let count = self.room.min(answer.count as usize);
        let text = output.part()[..count].to_vec();
        output.expect("text", &text)?;
        tones.expect("tones handed in", &self.tones)?;
        Ok(Given { answer, text })
    }
}

/// What becomes of an answer at a greater set lead: it stays, or a text, 11 or 12 turns into 10, or 10 goes to an earlier place.
fn step(least_lead: u32, before: &Given, after: &Given) -> Result<[bool; KINDS.len()], String> {
    let (low, high) = (before.answer, after.answer);
    let stays = before == after;
    let turns = |number: u32| (low.number, high.number) == (number, 10);
    let is_earlier = turns(10) && high.place < low.place;
    if turns(0) || turns(11) || turns(12) || is_earlier {
        expect_equal("a lead below m", true, high.lead < least_lead)?;
        let count = (high.count, after.text.len());
        expect_equal("codes written", (0, 0), count)?;
    } else {
        expect_equal("answer and text", before, after)?;
    }
    Ok([
        stays && low.number == 0,
        turns(0),
        stays && low.number == 11,
        turns(11),
        stays && low.number == 12,
        turns(12),
        stays && low.number == 10,
        is_earlier,
        stays && ![0, 10, 11, 12].contains(&low.number),
    ])
}

/// The codes of whole blocks, at times of a text over 1,024 codes.
fn codes(random: &mut Random, b: usize) -> Vec<u8> {
    let most = b * block_count(b, LONGEST_MESSAGE);
    if most > LONGEST_MESSAGE && random.one_in(OVER_ONE_IN) {
        (0..most).map(|_| random.letter()).collect()
    } else {
        codes_on_the_air(random, b)
    }
}

/// The tones of these blocks, up to three of them damaged.
fn tones_on_the_air(random: &mut Random, b: usize, codes: &[u8], least_lead: u32) -> Vec<u16> {
    let blocks = codes.chunks(b);
    let mut tones: Vec<u16> = blocks.flat_map(|block| block_tones(b, block)).collect();
    for _ in 0..random.between(0, 3) {
        let block = random.below(codes.len().max(1));
        let sent = codes.chunks(b).nth(block / b);
        if let (Some(sent), Some(tones)) = (sent, tones.chunks_mut(SYMBOLS).nth(block / b)) {
            tones.copy_from_slice(&draw::heard(random, b, sent, least_lead));
        }
    }
    tones
}
