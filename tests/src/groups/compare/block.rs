//! Blocks encoded and decoded.

use super::super::lent::Lent;
use super::super::{answer_of, block_of, expect_equal, written};
use super::draw::{self, Wrong};
use super::{records, Met};
use olivia_tests::library;
use olivia_tests::paper;
use olivia_tests::random::Random;

/// A block's codes, of a wrong count or with a wrong code as asked.
pub fn codes_to_send(random: &mut Random, b: usize, wrong: &Wrong) -> Vec<u8> {
    let count = if wrong.count {
        draw::wrong_length(random, b)
    } else {
        b
    };
    let mut codes: Vec<u8> = (0..count).map(|_| random.code()).collect();
    if wrong.content {
        draw::spoil(random, &mut codes, draw::wrong_code);
    }
    codes
}

/// A block's tones, of a wrong count or with a wrong tone as asked.
pub fn tones_to_hear(
    random: &mut Random,
    b: usize,
    text: &[u8],
    least_lead: u32,
    wrong: &Wrong,
) -> Vec<u16> {
    let mut tones = draw::heard(random, b, text, least_lead);
    draw::spoil_tones(random, b, &mut tones, wrong);
    tones
}

#[derive(Debug)]
pub struct Encode {
    mode: u32,
    codes: Vec<u8>,
    room: usize,
}

impl super::Case for Encode {
    const FUNCTION: &'static str = "encode_block";
    const REFUSALS: &'static [u32] = &[1, 5, 6, 9];

    fn draw(random: &mut Random) -> Self {
        let wrong = Wrong::draw(random);
        let b = random.between(1, 8);
        Encode {
            mode: draw::mode(random, b, wrong.mode),
            codes: codes_to_send(random, b, &wrong),
            room: draw::room(random, paper::SYMBOLS, wrong.room),
        }
    }

    fn mode(&self) -> u32 {
        self.mode
    }

    fn compare(&self) -> Result<Met, String> {
        let mut codes = Lent::input(&self.codes);
        let mut tones = Lent::output(self.room);
        let given = library::encode_block(self.mode, codes.part(), tones.part());
        let said = paper::encode_block(self.mode, &self.codes, self.room);
        expect_equal("answer", answer_of(&said), given)?;
        tones.expect("tones", written(&said))?;
        codes.expect("codes handed in", &self.codes)?;
        Ok(Met::numbers(&[given.number]))
    }
}

#[derive(Debug)]
pub struct Decode {
    mode: u32,
    least_lead: u32,
    tones: Vec<u16>,
    room: usize,
}

impl super::Case for Decode {
    const FUNCTION: &'static str = "decode_block";
    const REFUSALS: &'static [u32] = &[1, 2, 7, 8, 9, 10];

    fn draw(random: &mut Random) -> Self {
        let wrong = Wrong::draw(random);
        let b = random.between(1, 8);
        let text: Vec<u8> = (0..b).map(|_| random.code()).collect();
        let least_lead = draw::least_lead(random, wrong.lead);
        Decode {
            mode: draw::mode(random, b, wrong.mode),
            least_lead,
            tones: tones_to_hear(random, b, &text, least_lead, &wrong),
            room: draw::room(random, b, wrong.room),
        }
    }

    fn mode(&self) -> u32 {
        self.mode
    }

    fn compare(&self) -> Result<Met, String> {
        let mut tones = Lent::input(&self.tones);
        let mut codes = Lent::output(self.room);
        let given = library::decode_block(self.mode, self.least_lead, tones.part(), codes.part());
        let said = paper::decode_block(self.mode, self.least_lead, &self.tones, self.room);
        expect_equal("answer", block_of(&said), given)?;
        codes.expect("codes", written(&said.text))?;
        tones.expect("tones handed in", &self.tones)?;
        Ok(Met {
            records: records::kinds(&said, &self.tones, &paper::PLAIN),
            ..Met::numbers(&[given.answer.number])
        })
    }
}
