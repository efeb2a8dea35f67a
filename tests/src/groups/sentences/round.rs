//! Every place of every refusal, and every lead of those that have one, written as the paper says and read back to what it came
//! from. So no two of these sentences are the same.

use super::super::Report;
use super::call::{expect_read, Write};
use olivia_tests::paper::{rows, Refusal, Row, GREATEST_LEAD, GREATEST_PLACE};

/// Where every lead is tried.
const PLACES: [u32; 6] = [0, 5, 96, 1023, 9609, GREATEST_PLACE];

pub fn run() -> Report {
    let (mut places, mut leads) = (0, 0);
    for row in rows() {
        for place in 0..=GREATEST_PLACE {
            expect_back(row, place, 0)?;
            places += 1;
        }
        if row.has_lead() {
            for place in PLACES {
                for lead in 1..=GREATEST_LEAD {
                    expect_back(row, place, lead)?;
                    leads += 1;
                }
            }
        }
    }
    Ok(format!(
        "{places} sentences of every number and place and {leads} of every lead written and read back"
    ))
}

/// The sentence is written into just as many bytes as it has, and is read back.
fn expect_back(row: &Row, place: u32, lead: u32) -> Result<(), String> {
    let number = row.number;
    let sentence = row.sentence(place, lead);
    let call = Write::new(number, place, lead, sentence.len());
    let written = call.run()?;
    let written = written.map_err(|number| format!("{call:?}: refused with {number}"))?;
    let said = Refusal {
        number,
        place: place as usize,
        lead,
    };
    expect_read(&written, Ok(said))
}
