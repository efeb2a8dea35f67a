//! Messages encoded and decoded.

use super::super::lent::Lent;
use super::super::{answer_of, expect_equal, written};
use super::draw::{self, Wrong};
use super::Met;
use olivia_tests::library;
use olivia_tests::paper::{self, block_count, block_tones, LONGEST_MESSAGE, SYMBOLS};
use olivia_tests::random::Random;

/// One message in so many is long; the paper takes milliseconds to decode one.
const LONG_ONE_IN: usize = 20;

/// The count of a message's codes: short, or close to the limit.
fn length(random: &mut Random, b: usize) -> usize {
    if random.one_in(LONG_ONE_IN) {
        let near = random.between(LONGEST_MESSAGE - 2 * b, LONGEST_MESSAGE);
        random.pick(&[near, LONGEST_MESSAGE - 1, LONGEST_MESSAGE])
    } else {
        let any = random.below(4 * b);
        random.pick(&[0, 1, b - 1, b, b + 1, any])
    }
}

#[derive(Debug)]
pub struct Encode {
    mode: u32,
    text: Vec<u8>,
    room: usize,
}

impl super::Case for Encode {
    const FUNCTION: &'static str = "encode_message";
    const REFUSALS: &'static [u32] = &[1, 5, 6, 9];

    fn draw(random: &mut Random) -> Self {
        let wrong = Wrong::draw(random);
        let b = random.between(1, 8);
        let length = match (wrong.count, random.below(3)) {
            (false, _) => length(random, b),
            (true, 0) => LONGEST_MESSAGE + random.between(2, 20),
            (true, _) => LONGEST_MESSAGE + 1,
        };
        let mut text: Vec<u8> = (0..length).map(|_| random.letter()).collect();
        if wrong.content {
            let wrong_letter = |random: &mut Random| match random.below(2) {
                0 => 0,
                _ => draw::wrong_code(random),
            };
            draw::spoil(random, &mut text, wrong_letter);
        }
        Encode {
            mode: draw::mode(random, b, wrong.mode),
            room: draw::room(random, SYMBOLS * block_count(b, length), wrong.room),
            text,
        }
    }

    fn mode(&self) -> u32 {
        self.mode
    }

    fn compare(&self) -> Result<Met, String> {
        let mut text = Lent::input(&self.text);
        let mut tones = Lent::output(self.room);
        let given = library::encode_message(self.mode, text.part(), tones.part());
        let said = paper::encode_message(self.mode, &self.text, self.room);
        expect_equal("answer", answer_of(&said), given)?;
        tones.expect("tones", written(&said))?;
        text.expect("text handed in", &self.text)?;
        Ok(Met::numbers(&[given.number]))
    }
}

#[derive(Debug)]
pub struct Decode {
    mode: u32,
    least_lead: u32,
    tones: Vec<u16>,
    room: usize,
}

/// The codes of whole blocks: a text, now and then with a 0 inside, with blocks of 0 after it, or over 1,024 codes.
pub fn codes_on_the_air(random: &mut Random, b: usize) -> Vec<u8> {
    let most = b * block_count(b, LONGEST_MESSAGE);
    let length = match length(random, b) {
        LONGEST_MESSAGE => random.between(LONGEST_MESSAGE, most),
        shorter => shorter,
    };
    let mut codes: Vec<u8> = (0..length).map(|_| random.letter()).collect();
    if random.one_in(6) {
        draw::spoil(random, &mut codes, |_| 0);
    }
    let idle = if random.one_in(6) {
        b * random.between(1, 2)
    } else {
        0
    };
    codes.resize((b * block_count(b, length) + idle).min(most), 0);
    codes
}

/// The tones of these blocks as heard: most messages whole, in the others one block in two damaged.
fn tones_on_the_air(random: &mut Random, b: usize, codes: &[u8], least_lead: u32) -> Vec<u16> {
    let damaged = random.one_in(3);
    let mut tones = vec![];
    for block in codes.chunks(b) {
        if damaged && random.one_in(2) {
            tones.extend(draw::heard(random, b, block, least_lead));
        } else {
            tones.extend(block_tones(b, block));
        }
    }
    tones
}

/// A count of tones that no message has: between whole blocks, or one block above the limit.
pub fn wrong_count(random: &mut Random, b: usize, right: usize) -> usize {
    match random.below(4) {
        0 => SYMBOLS * (block_count(b, LONGEST_MESSAGE) + 1),
        1 => right + 1,
        2 => right.max(SYMBOLS) - 1,
        _ => right + random.between(1, SYMBOLS - 1),
    }
}

impl super::Case for Decode {
    const FUNCTION: &'static str = "decode_message";
    const REFUSALS: &'static [u32] = &[1, 2, 7, 8, 9, 10, 11, 12];

    fn draw(random: &mut Random) -> Self {
        let wrong = Wrong::draw(random);
        let b = random.between(1, 8);
        let least_lead = draw::least_lead(random, wrong.lead);
        let codes = codes_on_the_air(random, b);
        let mut tones = tones_on_the_air(random, b, &codes, least_lead);
        if wrong.content {
            draw::spoil(random, &mut tones, |random| draw::wrong_tone(random, b));
        }
        if wrong.count {
            tones.resize(wrong_count(random, b, tones.len()), 0);
        }
        Decode {
            mode: draw::mode(random, b, wrong.mode),
            least_lead,
            room: draw::room(random, b * (tones.len() / SYMBOLS), wrong.room),
            tones,
        }
    }

    fn mode(&self) -> u32 {
        self.mode
    }

    fn compare(&self) -> Result<Met, String> {
        let mut tones = Lent::input(&self.tones);
        let mut text = Lent::output(self.room);
        let given = library::decode_message(self.mode, self.least_lead, tones.part(), text.part());
        let said = paper::decode_message(self.mode, self.least_lead, &self.tones, self.room);
        expect_equal("answer", answer_of(&said), given)?;
        text.expect("text", written(&said))?;
        tones.expect("tones handed in", &self.tones)?;
        Ok(Met::numbers(&[given.number]))
    }
}
