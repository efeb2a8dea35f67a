//! Blocks that another Olivia program made: the library and the paper encode and decode each.

use super::{answer_of, block_of, expect_equal, lent::Lent, Report};
use olivia_tests::library;
use olivia_tests::paper;

const BLOCKS: &str = include_str!("../../data/fldigi-blocks.txt");
const BLOCKS_IN_FILE: usize = 320;

struct Vector {
    mode: u32,
    codes: Vec<u8>,
    tones: Vec<u16>,
}

/// A line is the mode, its codes, and 64 tones.
fn read(line: &str) -> Option<Vector> {
    let numbers: Option<Vec<u16>> = line.split(' ').map(|word| word.parse().ok()).collect();
    let numbers = numbers?;
    let b = usize::from(*numbers.first()?);
    if numbers.len() != 1 + b + paper::SYMBOLS {
        return None;
    }
    let codes: Result<Vec<u8>, _> = numbers[1..=b].iter().map(|&code| code.try_into()).collect();
    Some(Vector {
        mode: b as u32,
        codes: codes.ok()?,
        tones: numbers[1 + b..].to_vec(),
    })
}

pub fn run() -> Report {
    let mut cases = 0;
    for (index, line) in BLOCKS.lines().enumerate() {
        let place = format!("tests/data/fldigi-blocks.txt, line {}", index + 1);
        let vector = read(line).ok_or(format!("{place}: unreadable"))?;
        let checks = [encoded(&vector), decoded(&vector, 1), decoded(&vector, 64)];
        for check in checks {
            cases += check.map_err(|difference| format!("{place}: {difference}"))?;
        }
    }
    expect_equal("blocks in the file", BLOCKS_IN_FILE, BLOCKS.lines().count())?;
    Ok(format!("{cases} cases, of {BLOCKS_IN_FILE} blocks"))
}

/// Checks both sides, and answers with the count of cases.
fn encoded(vector: &Vector) -> Result<usize, String> {
    let wanted = Ok(vector.tones.clone());
    let said = paper::encode_block(vector.mode, &vector.codes, paper::SYMBOLS);
    expect_equal("encode, by the paper", &wanted, &said)?;
    let mut codes = Lent::input(&vector.codes);
    let mut tones = Lent::output(paper::SYMBOLS);
    let given = library::encode_block(vector.mode, codes.part(), tones.part());
    expect_equal("encode", answer_of(&wanted), given)?;
    tones.expect("tones", &vector.tones)?;
    codes.expect("codes handed in", &vector.codes)?;
    Ok(2)
}

fn decoded(vector: &Vector, least_lead: u32) -> Result<usize, String> {
    let room = vector.codes.len();
    let wanted = paper::Heard {
        characters: vector.codes.iter().map(clean).collect(),
        text: Ok(vector.codes.clone()),
    };
    let said = paper::decode_block(vector.mode, least_lead, &vector.tones, room);
    expect_equal("decode, by the paper", &wanted, &said)?;
    let mut tones = Lent::input(&vector.tones);
    let mut codes = Lent::output(room);
    let given = library::decode_block(vector.mode, least_lead, tones.part(), codes.part());
    expect_equal("decode", block_of(&wanted), given)?;
    codes.expect("codes", &vector.codes)?;
    tones.expect("tones handed in", &vector.tones)?;
    Ok(2)
}

/// The record of a character of which no bit is lost: the other 63 correlations are 0, and the lowest-numbered is the runner-up.
fn clean(code: &u8) -> paper::Character {
    let word = usize::from(code % 64);
    paper::Character {
        code: *code,
        lead: 64,
        word,
        correlation: if *code < 64 { 64 } else { -64 },
        next: if word == 0 { 1 } else { 0 },
        next_correlation: 0,
    }
}
