//! The cases of document 01's bench sheet that speak of blocks, messages and frequencies, by the library and by the paper.

use super::damage::{even_missing, even_turned};
use super::heard::{expect_clear, expect_unclear};
use super::{answer_of, expect_equal, written, Report};
use olivia_tests::library::{self, Answer, Hertz};
use olivia_tests::paper::{self, MISSING};

/// In the order of the sheet, from case 1.
const CASES: [fn() -> Result<(), String>; 14] = [
    || expect_first(1, &[0], &[0, 0, 1, 1, 0, 1, 1, 1]),
    || expect_first(1, &[64], &[1, 1, 0, 0, 1, 0, 0, 0]),
    || expect_first(1, &[1], &[1, 0, 0, 1, 1, 1, 0, 1]),
    || expect_first(2, &[0, 0], &[3, 1, 1, 2, 0, 2]),
    || expect_symbol(2, 3).and_then(|()| expect_symbol(7, 4)),
    || expect_clear(1, 64, &turned(0)?, &[[0, 64, 0, 64, 1, 0]]),
    || {
        expect_clear(1, 4, &turned(15)?, &[[0, 4, 0, 34, 1, 30]])?;
        expect_unclear(1, 5, &turned(15)?, 0, &[[0, 4, 0, 34, 1, 30]])
    },
    || expect_unclear(1, 1, &turned(16)?, 0, &[[0, 0, 0, 32, 1, 32]]),
    || {
        expect_clear(1, 1, &missing(31)?, &[[0, 2, 0, 33, 1, 31]])?;
        expect_unclear(1, 1, &missing(32)?, 0, &[[0, 0, 0, 32, 1, 32]])
    },
    || expect_clear(1, 64, &turned(32)?, &[[1, 64, 1, 64, 0, 0]]),
    || expect_unclear(1, 1, &[MISSING; 64], 0, &[[0, 0, 0, 0, 1, 0]]),
    || expect_hertz(0, 1015.625).and_then(|()| expect_hertz(31, 1984.375)),
    longest_messages,
    || {
        let zero = encoded(1, &[0])?;
        expect_message(1, 64, &zero, refused(11, 0))?;
        expect_message(9, 0, &zero, refused(1, 0))
    },
];

pub fn run() -> Report {
    let mut cases = 0;
    for case in CASES {
        cases += 1;
        case().map_err(|difference| format!("case {cases}: {difference}"))?;
    }
    Ok(format!("{cases} cases"))
}

fn accepted(count: u32) -> Answer {
    Answer {
        count,
        ..Answer::default()
    }
}

fn refused(number: u32, place: u32) -> Answer {
    Answer {
        number,
        place,
        ..Answer::default()
    }
}

/// The tones of a block, on which both sides agree.
fn encoded(mode: u32, codes: &[u8]) -> Result<Vec<u16>, String> {
    let mut tones = vec![0; paper::SYMBOLS];
    let given = library::encode_block(mode, codes, &mut tones);
    expect_equal("encode", accepted(64), given)?;
    let said = paper::encode_block(mode, codes, tones.len());
    expect_equal("encode, by the paper", Ok(tones.clone()), said)?;
    Ok(tones)
}

fn expect_first(mode: u32, codes: &[u8], wanted: &[u16]) -> Result<(), String> {
    expect_equal(
        "first tones",
        wanted,
        &encoded(mode, codes)?[..wanted.len()],
    )
}

/// The library has no entry for a symbol alone. At b = 3 it sends this tone just where the chain has this symbol, and a block with
/// such tones is heard with no bit lost.
fn expect_symbol(symbol: u16, tone: u16) -> Result<(), String> {
    expect_equal("symbol, by the paper", symbol, paper::symbol_of(tone))?;
    let places = |of: u16, values: &[u16]| -> Vec<usize> {
        (0..paper::SYMBOLS).filter(|&t| values[t] == of).collect()
    };
    for codes in [[0, 0, 0], [1, 0, 1]] {
        let tones = encoded(3, &codes)?;
        let sent = places(symbol, &paper::block_symbols(3, &codes));
        expect_equal("a place with the symbol", false, sent.is_empty())?;
        expect_equal("places of the tone", sent, places(tone, &tones))?;
        let mut heard = [255; 3];
        let given = library::decode_block(3, 64, &tones, &mut heard);
        expect_equal("answer", accepted(3), given.answer)?;
        expect_equal("codes", codes, heard)?;
    }
    Ok(())
}

/// Case 1 whole, with the first so many even tones turned.
fn turned(count: usize) -> Result<Vec<u16>, String> {
    Ok(even_turned(encoded(1, &[0])?, count))
}

/// The same with so many missing.
fn missing(count: usize) -> Result<Vec<u16>, String> {
    Ok(even_missing(encoded(1, &[0])?, count))
}

fn expect_hertz(tone: u16, hertz: f64) -> Result<(), String> {
    let accepted = Hertz {
        hertz,
        ..Hertz::default()
    };
    let given = library::frequency(5, 1000, 1500, tone);
    expect_equal("frequency", accepted, given)?;
    let said = paper::frequency(5, 1000, 1500, tone);
    expect_equal("frequency, by the paper", Ok(hertz), said)
}

/// The answer to a message, and on its text both sides agree.
fn expect_message(mode: u32, least_lead: u32, tones: &[u16], wanted: Answer) -> Result<(), String> {
    let mut text = [255; 1026];
    let given = library::decode_message(mode, least_lead, tones, &mut text);
    expect_equal("message", wanted, given)?;
    let said = paper::decode_message(mode, least_lead, tones, text.len());
    expect_equal("message, by the paper", wanted, answer_of(&said))?;
    let mut said_text = [255; 1026];
    said_text[..written(&said).len()].copy_from_slice(written(&said));
    expect_equal("text, by the paper and by the library", said_text, text)
}

fn longest_messages() -> Result<(), String> {
    let text: Vec<u8> = (0..1025).map(|place| 1 + (place % 127) as u8).collect();
    let mut tones = vec![0; 64 * 342];
    let given = library::encode_message(3, &text[..1024], &mut tones);
    expect_equal("sent", accepted(64 * 342), given)?;
    let said = paper::encode_message(3, &text[..1024], tones.len());
    expect_equal("sent, by the paper", Ok(tones.clone()), said)?;
    expect_message(3, 64, &tones, accepted(1024))?;
    let last = encoded(3, &[text[1023], text[1024], 0])?;
    tones[64 * 341..].copy_from_slice(&last);
    expect_message(3, 64, &tones, refused(12, 1024))
}
