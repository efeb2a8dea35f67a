//! Cases of document 01's bench sheet at every set lead from 1 to 64. The record is the same at each, and the text is given up to its
//! lead.

use super::super::damage::{even_missing, even_turned};
use super::super::heard::{expect_clear, expect_unclear, Numbers};
use super::super::Report;
use olivia_tests::paper::{block_tones, MISSING, SYMBOLS};

/// A case's name, its tones, and the record of its character.
type Case = (&'static str, fn() -> Vec<u16>, Numbers);

/// By the number on the sheet; of case 9 both blocks.
const CASES: [Case; 7] = [
    ("case 6", sent, [0, 64, 0, 64, 1, 0]),
    ("case 7", || even_turned(sent(), 15), [0, 4, 0, 34, 1, 30]),
    ("case 8", || even_turned(sent(), 16), [0, 0, 0, 32, 1, 32]),
    ("case 9", || even_missing(sent(), 31), [0, 2, 0, 33, 1, 31]),
    ("case 9", || even_missing(sent(), 32), [0, 0, 0, 32, 1, 32]),
    ("case 10", || even_turned(sent(), 32), [1, 64, 1, 64, 0, 0]),
    ("case 11", || vec![MISSING; SYMBOLS], NOTHING),
];

/// Every correlation is 0.
const NOTHING: Numbers = [0, 0, 0, 0, 1, 0];

pub fn run() -> Report {
    for least_lead in 1..=64 {
        for (name, tones, record) in CASES {
            let met = expect(least_lead, &tones(), record);
            met.map_err(|difference| format!("{name} at {least_lead}: {difference}"))?;
        }
        for b in 2..=8 {
            let nothing = vec![NOTHING; b];
            let met = expect_unclear(b as u32, least_lead, &[MISSING; SYMBOLS], 0, &nothing);
            met.map_err(|difference| format!("case 11, mode {b}, at {least_lead}: {difference}"))?;
        }
    }
    Ok(format!(
        "{} blocks of the bench sheet at every m from 1 to 64, case 11 in every mode",
        CASES.len()
    ))
}

/// Case 1 whole.
fn sent() -> Vec<u16> {
    block_tones(1, &[0])
}

fn expect(least_lead: u32, tones: &[u16], record: Numbers) -> Result<(), String> {
    if least_lead <= record[1] as u32 {
        expect_clear(1, least_lead, tones, &[record])
    } else {
        expect_unclear(1, least_lead, tones, 0, &[record])
    }
}
