//! Random bytes to be read: what is told, and the bytes unchanged.

use super::super::tally::Tally;
use super::super::Report;
use super::call::{read, Told};
use super::damaged::SOURCES;
use olivia_tests::paper::{read_sentence, rows};
use olivia_tests::random::Random;
use std::collections::BTreeMap;

/// Reads of each source.
const REPEATS: usize = 30_000;

/// Each number of the list is read at least so often.
const OFTEN: usize = 100;

/// What a read came to, and where it was refused.
const OUTCOMES: [&str; 7] = [
    "read",
    "refused with 20",
    "at 0",
    "in the number",
    "at a digit behind digits",
    "at the end of the bytes",
    "behind a whole sentence",
];

pub fn run(random: &mut Random) -> Report {
    let mut outcomes = Tally::new(OUTCOMES);
    let mut by_number: BTreeMap<u32, usize> = BTreeMap::new();
    for _ in 0..REPEATS {
        for (_, draw) in SOURCES {
            let bytes = draw(random);
            let told = read(&bytes)?;
            outcomes.add(outcome(&bytes, told));
            if let Ok(said) = told {
                *by_number.entry(said.number).or_default() += 1;
            }
        }
    }
    outcomes.expect_often()?;
    let numbers = numbers(&by_number)?;
    let sources = SOURCES.map(|source| source.0).join(", ");
    Ok(format!(
        "{}\n  {REPEATS} reads of each of these: {sources}\n  read by number, {numbers}",
        outcomes.line("random reads")
    ))
}

fn outcome(bytes: &[u8], told: Told) -> [bool; OUTCOMES.len()] {
    let Err(place) = told else {
        return OUTCOMES.map(|outcome| outcome == "read");
    };
    let (shared, rest) = bytes.split_at(place);
    let is_digit = |byte: Option<&u8>| byte.is_some_and(u8::is_ascii_digit);
    [
        false,
        true,
        place == 0,
        place > 0 && !shared.contains(&b':'),
        shared.contains(&b':') && is_digit(shared.last()) && is_digit(rest.first()),
        rest.is_empty(),
        shared.ends_with(b".") && read_sentence(shared).is_ok(),
    ]
}

/// How often each number of the list was read.
fn numbers(by_number: &BTreeMap<u32, usize>) -> Result<String, String> {
    let mut counts = vec![];
    for row in rows() {
        let count = by_number.get(&row.number).copied().unwrap_or(0);
        if count < OFTEN {
            return Err(format!("{}: read {count} times", row.number));
        }
        counts.push(format!("{}: {count}", row.number));
    }
    Ok(counts.join(", "))
}
