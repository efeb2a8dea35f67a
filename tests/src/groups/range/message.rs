//! Messages: what the check tells, beside decode_message with all other limits kept. Each is heard without its bad tones too: then
//! a block of which nothing is clear has it refused with 10, but with 8 while a bad tone stands anywhere in it.

use super::super::compare::draw;
use super::super::compare::range::spoil;
use super::super::damage::even_missing;
use super::super::tally::Tally;
use super::super::{expect_equal, lent::Lent, Report};
use super::{check, refused, told};
use olivia_tests::library::{self, Answer};
use olivia_tests::paper::{block_count, block_tones, LONGEST_MESSAGE, MISSING, SYMBOLS};
use olivia_tests::random::Random;

/// Messages of each mode.
const REPEATS: usize = 1500;

/// One message in so many is as long as one may be.
const LONG_ONE_IN: usize = 25;

const KINDS: [&str; 8] = [
    "refused with 8",
    "in the first block",
    "in a later one behind clear ones",
    "in a later one behind an unclear one",
    "at a place above 4,095",
    "with bad tones in several blocks",
    "refused with 10",
    "accepted",
];

pub fn run(random: &mut Random) -> Report {
    let mut tally = Tally::new(KINDS);
    for b in (1..=8).flat_map(|b| [b; REPEATS]) {
        let case = Case::draw(random, b);
        let met = case.run();
        tally.add(met.map_err(|difference| format!("{case:?}: {difference}"))?);
    }
    tally.expect_often()?;
    Ok(tally.line("messages"))
}

#[derive(Debug)]
struct Case {
    b: usize,
    least_lead: u32,
    text: Vec<u8>,
    /// The block of which nothing is clear, if there is one.
    unclear: Option<usize>,
    /// The tones without bad ones, and with them.
    right: Vec<u16>,
    tones: Vec<u16>,
    room: usize,
}

impl Case {
    /// Half of the messages have an unclear block, and two in three have bad tones: in one block, or in up to three.
    fn draw(random: &mut Random, b: usize) -> Self {
        let length = if random.one_in(LONG_ONE_IN) {
            LONGEST_MESSAGE
        } else {
            random.below(8 * b)
        };
        let blocks = block_count(b, length);
        let text: Vec<u8> = (0..length).map(|_| random.letter()).collect();
        let unclear = (blocks > 0 && random.one_in(2)).then(|| random.below(blocks));
        let right = tones_on_the_air(random, b, &text, unclear);
        let mut tones = right.clone();
        for _ in 0..random.pick(&[0, 1, 3]) {
            let block = random.below(blocks.max(1));
            if let Some(tones) = tones.chunks_mut(SYMBOLS).nth(block) {
                spoil(random, b, tones);
            }
        }
        Case {
            b,
            least_lead: draw::least_lead(random, false),
            text,
            unclear,
            right,
            tones,
            room: draw::room(random, b * blocks, false),
        }
    }

    /// Compares the calls, and answers with the kinds of the message.
    fn run(&self) -> Result<[bool; KINDS.len()], String> {
        self.expect_without_bad_tones()?;
        let looked = check(self.b as u32, &self.tones)?;
        expect_equal("check", told(&self.right, &self.tones), looked)?;
        let answer = self.hear(&self.tones)?;
        let given = (answer.number == 8).then_some(answer);
        expect_equal("decode_message beside the check", refused(looked), given)?;

        let is_refused = answer.number == 8;
        let block = answer.place as usize / SYMBOLS;
        let is_behind_unclear = self.unclear.is_some_and(|unclear| unclear < block);
        let is_later = is_refused && block > 0;
        let next = SYMBOLS * (block + 1);
        let is_in_several = is_refused && self.tones[next..] != self.right[next..];
        Ok([
            is_refused,
            is_refused && block == 0,
            is_later && !is_behind_unclear,
            is_later && is_behind_unclear,
            is_refused && answer.place > 4095,
            is_in_several,
            answer.number == 10,
            answer.number == 0,
        ])
    }

    /// Without its bad tones the message is accepted, or refused for the unclear block.
    fn expect_without_bad_tones(&self) -> Result<(), String> {
        let looked = check(self.b as u32, &self.right)?;
        let wanted = told(&self.right, &self.right);
        expect_equal("check without the bad tones", wanted, looked)?;
        let wanted = match self.unclear {
            Some(block) => Answer {
                number: 10,
                place: (self.b * block) as u32,
                ..Answer::default()
            },
            None => Answer {
                count: self.text.len() as u32,
                ..Answer::default()
            },
        };
        let given = self.hear(&self.right)?;
        expect_equal("decode_message without the bad tones", wanted, given)
    }

    /// What decode_message answers to these tones, which it leaves as they were. It writes the text only if it accepts them.
    fn hear(&self, tones: &[u16]) -> Result<Answer, String> {
        let mut lent = Lent::input(tones);
        let mut text = Lent::output(self.room);
        let mode = self.b as u32;
        let answer = library::decode_message(mode, self.least_lead, lent.part(), text.part());
        let written = match answer.number {
            0 => &self.text[..],
            _ => &[],
        };
        text.expect("text", written)?;
        lent.expect("tones handed in", tones)?;
        Ok(answer)
    }
}

/// The tones of a text, in one block of which every tone or every even one is missing: its characters have lead 0.
fn tones_on_the_air(
    random: &mut Random,
    b: usize,
    text: &[u8],
    unclear: Option<usize>,
) -> Vec<u16> {
    let mut codes = text.to_vec();
    codes.resize(b * block_count(b, text.len()), 0);
    let blocks = codes.chunks(b).enumerate();
    let of_block = |(block, codes): (usize, &[u8])| match unclear {
        Some(unclear) if unclear == block && random.one_in(2) => vec![MISSING; SYMBOLS],
        Some(unclear) if unclear == block => even_missing(block_tones(b, codes), SYMBOLS / 2),
        _ => block_tones(b, codes),
    };
    blocks.flat_map(of_block).collect()
}
