//! Calls of writing that are refused: each limit broken in several ways, 20 by itself and before 9.

use super::super::Report;
use super::call::Write;
use olivia_tests::paper::{rows, Row, GREATEST_LEAD, GREATEST_PLACE};

/// Places and leads of the calls that are made wrong.
const PLACES: [u32; 3] = [0, 63, GREATEST_PLACE];
const LEADS: [u32; 3] = [0, 7, GREATEST_LEAD];

pub fn run() -> Report {
    let (mut of_20, mut of_9, mut before) = (0, 0, 0);
    for (row, right) in right() {
        right
            .run()?
            .map_err(|number| format!("{right:?}: {number}"))?;
        for short in short(&right) {
            short.expect_written(Err(9))?;
            of_9 += 1;
        }
        for wrong in unknown(&right, row) {
            wrong.expect_written(Err(20))?;
            of_20 += 1;
            for both in short(&wrong) {
                both.expect_written(Err(20))?;
                before += 1;
            }
        }
    }
    Ok(format!(
        "{of_20} calls refused with 20, {of_9} with 9, {before} with 20 before 9"
    ))
}

/// Calls of every row with just enough room.
fn right() -> Vec<(&'static Row, Write)> {
    let mut right = vec![];
    for row in rows() {
        let leads = if row.has_lead() { &LEADS[..] } else { &[0] };
        for place in PLACES {
            for &lead in leads {
                let room = row.sentence(place, lead).len();
                right.push((row, Write::new(row.number, place, lead, room)));
            }
        }
    }
    right
}

/// The call with a shorter output.
fn short(call: &Write) -> Vec<Write> {
    let room = call.room;
    [0, 1, room / 2, room - 1]
        .map(|room| Write { room, ..*call })
        .to_vec()
}

/// The call with each limit of 20 broken, in each way. Some numbers are right in their last 8 or 16 bits.
fn unknown(call: &Write, row: &Row) -> Vec<Write> {
    let Write {
        number,
        place,
        lead,
        ..
    } = *call;
    let last = rows().len() as u32;
    let numbers = [0, last + 1, 256 + number, 65_536 + number, u32::MAX];
    let places = [65_536, 65_536 + place, 70_000, 1 << 31, u32::MAX];
    let leads: &[u32] = if row.has_lead() {
        &[961, 1024, 65_536 + lead, 1 << 31, u32::MAX]
    } else {
        &[1, 2, 959, 960, 961, 256, 65_536, u32::MAX]
    };
    let with_number = numbers.iter().map(|&number| Write { number, ..*call });
    let with_place = places.iter().map(|&place| Write { place, ..*call });
    let with_lead = leads.iter().map(|&lead| Write { lead, ..*call });
    with_number.chain(with_place).chain(with_lead).collect()
}
