//! The list of docs/REFUSALS.md: its form, and that the library writes and reads each of its rows just so, and no other number.

use super::super::{expect_equal, Report};
use super::call::{expect_read, Write};
use olivia_tests::paper::{rows, Refusal, Row, GREATEST_LEAD, GREATEST_PLACE};

const PLACES: [u32; 8] = [0, 1, 9, 10, 64, 1023, 1024, GREATEST_PLACE];
const LEADS: [u32; 3] = [0, 2, GREATEST_LEAD];

/// Numbers up to this are all tried.
const NUMBERS: u32 = 300;

/// More than any sentence has.
const ROOM: usize = 200;

pub fn run() -> Report {
    for (row, number) in rows().iter().zip(1..) {
        let met = expect_form(row, number);
        met.map_err(|difference| format!("{row:?}: {difference}"))?;
    }
    // Without 20 there would be no order 8.
    expect_equal("20 or more rows", true, rows().len() >= 20)?;
    let mut sentences = 0;
    for row in rows() {
        for place in PLACES {
            sentences += expect_row(row, place)?;
        }
    }
    let unknown = unknown();
    for &number in &unknown {
        for room in [ROOM, 0] {
            Write::new(number, 0, 0, room).expect_written(Err(20))?;
        }
    }
    Ok(format!(
        "{} rows of docs/REFUSALS.md, {sentences} of their sentences, {} numbers that have none",
        rows().len(),
        unknown.len()
    ))
}

/// Numbered without a gap; printable ASCII that begins with its number; a mark of the place, and in 10 alone, behind it, of the
/// lead; and no digit stands next to a mark.
fn expect_form(row: &Row, number: u32) -> Result<(), String> {
    expect_equal("number", number, row.number)?;
    let beginning = format!("Refusal {number}: ");
    expect_equal("beginning", true, row.words.starts_with(&beginning))?;
    let is_printable = row.words.bytes().all(|byte| (b' '..=b'~').contains(&byte));
    expect_equal("printable", true, is_printable)?;
    let marks: String = row.words.matches(['#', '%']).collect();
    expect_equal("marks", if number == 10 { "#%" } else { "#" }, &marks)?;
    let is_apart = |part: &str| {
        let next = [part.chars().next(), part.chars().last()];
        next.iter().flatten().all(|next| !next.is_ascii_digit())
    };
    let is_apart = row.words.split(['#', '%']).all(is_apart);
    expect_equal("no digit at a mark", true, is_apart)
}

/// The row is written so, and read back, at this place and, if it has one, with each lead. Answers with the count.
fn expect_row(row: &Row, place: u32) -> Result<usize, String> {
    let leads = if row.has_lead() { &LEADS[..] } else { &[0] };
    for &lead in leads {
        let (before, after) = row.words.split_once('#').expect("a mark of the place");
        let mut wanted = format!("{before}{place}{after}");
        if let Some((before, after)) = wanted.split_once('%') {
            wanted = format!("{before}{lead}{after}");
        }
        Write::new(row.number, place, lead, ROOM).expect_written(Ok(&wanted))?;
        let said = Refusal {
            number: row.number,
            place: place as usize,
            lead,
        };
        expect_read(wanted.as_bytes(), Ok(said))?;
    }
    Ok(leads.len())
}

/// Numbers that the list does not have. Some are one of the list's in their last 8, 16, 24 or 31 bits.
fn unknown() -> Vec<u32> {
    let last = rows().len() as u32;
    let high = [1 << 16, 1 << 24, 1 << 31, u32::MAX - last];
    let large = high
        .iter()
        .flat_map(|high| (0..=last).map(move |low| high + low));
    let is_unknown = |number: &u32| rows().iter().all(|row| row.number != *number);
    (0..=NUMBERS).chain(large).filter(is_unknown).collect()
}
