//! What is to be heard of a block, in numbers as they stand in a case, held against the library and the paper.

use super::lent::Lent;
use super::{block_of, eight, expect_equal, written};
use olivia_tests::library::{self, Answer, Block, Character};
use olivia_tests::paper;

/// Enough for the codes of any mode.
const ROOM: usize = 8;

/// A record: code, lead, word and correlation, runner-up and correlation.
pub type Numbers = [i32; 6];

/// All characters are clear, and their codes are written.
pub fn expect_clear(
    mode: u32,
    least_lead: u32,
    tones: &[u16],
    records: &[Numbers],
) -> Result<(), String> {
    expect(mode, least_lead, tones, Wanted::clear(records))
}

/// The character at this place is the first that is not clear.
pub fn expect_unclear(
    mode: u32,
    least_lead: u32,
    tones: &[u16],
    place: usize,
    records: &[Numbers],
) -> Result<(), String> {
    expect(mode, least_lead, tones, Wanted::unclear(place, records))
}

/// Refused before any character is decided: no record has anything in it.
pub fn expect_refused(
    mode: u32,
    least_lead: u32,
    tones: &[u16],
    number: u32,
    place: u32,
) -> Result<(), String> {
    expect(mode, least_lead, tones, Wanted::refused(number, place))
}

fn expect(mode: u32, least_lead: u32, tones: &[u16], wanted: Wanted) -> Result<(), String> {
    let said = paper::decode_block(mode, least_lead, tones, ROOM);
    let mut output = Lent::output(ROOM);
    let given = library::decode_block(mode, least_lead, tones, output.part());
    wanted.expect(&said, given, &output)
}

/// What is to be heard: the answer with its records, and the codes that are written.
pub struct Wanted {
    block: Block,
    codes: Vec<u8>,
}

impl Wanted {
    pub fn clear(records: &[Numbers]) -> Self {
        let answer = Answer {
            count: records.len() as u32,
            ..Answer::default()
        };
        let codes = records.iter().map(|numbers| numbers[0] as u8).collect();
        Wanted {
            block: block(answer, records),
            codes,
        }
    }

    pub fn unclear(place: usize, records: &[Numbers]) -> Self {
        let answer = Answer {
            number: 10,
            place: place as u32,
            lead: records[place][1] as u32,
            count: 0,
        };
        Wanted {
            block: block(answer, records),
            codes: vec![],
        }
    }

    pub fn refused(number: u32, place: u32) -> Self {
        let answer = Answer {
            number,
            place,
            ..Answer::default()
        };
        Wanted {
            block: block(answer, &[]),
            codes: vec![],
        }
    }

    /// The paper says this, and the library gives it.
    pub fn expect(
        &self,
        said: &paper::Heard,
        given: Block,
        output: &Lent<u8>,
    ) -> Result<(), String> {
        expect_equal("heard, by the paper", self.block, block_of(said))?;
        expect_equal("codes, by the paper", &self.codes[..], written(&said.text))?;
        expect_equal("heard", self.block, given)?;
        output.expect("codes", &self.codes)
    }
}

fn block(answer: Answer, records: &[Numbers]) -> Block {
    let records = records.iter().map(|numbers| Character {
        code: numbers[0] as u32,
        lead: numbers[1] as u32,
        word: numbers[2] as u32,
        correlation: numbers[3],
        next: numbers[4] as u32,
        next_correlation: numbers[5],
    });
    Block {
        answer,
        characters: eight(records),
    }
}
