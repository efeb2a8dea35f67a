//! The groups of tests, and what they share. A group answers with its lines for the report, or with the first difference.

pub mod cases;
pub mod compare;
mod damage;
pub mod demand3;
pub mod energies;
pub mod finding;
mod heard;
mod lent;
pub mod listing;
pub mod plain;
pub mod queues;
pub mod raising;
pub mod range;
mod receivers;
pub mod records;
pub mod sentences;
pub mod sheet;
mod tally;
pub mod tuning;
pub mod vectors;
mod weighing;
pub mod weight0;
pub mod weighted;
pub mod weights;
pub mod words;

use olivia_tests::library::{Answer, Block, Character, Found, Looked};
use olivia_tests::paper::{self, Refusal};

/// The lines that a group prints, or the first difference: the inputs, what was wanted, what was given.
pub type Report = Result<String, String>;

/// The library's answer that stands for what the paper says of an output.
fn answer_of<T>(said: &Result<Vec<T>, Refusal>) -> Answer {
    match *said {
        Ok(ref written) => Answer {
            count: written.len() as u32,
            ..Answer::default()
        },
        Err(refusal) => Answer {
            number: refusal.number,
            place: refusal.place as u32,
            lead: refusal.lead,
            count: 0,
        },
    }
}

/// What the paper writes: nothing in a refusal.
fn written<T>(said: &Result<Vec<T>, Refusal>) -> &[T] {
    said.as_deref().unwrap_or(&[])
}

/// The library's block that stands for what the paper says of one.
fn block_of(said: &paper::Heard) -> Block {
    let records = said.characters.iter().map(record_of);
    Block {
        answer: answer_of(&said.text),
        characters: eight(records),
    }
}

fn record_of(character: &paper::Character) -> Character {
    Character {
        code: character.code.into(),
        lead: character.lead,
        word: character.word as u32,
        correlation: character.correlation,
        next: character.next as u32,
        next_correlation: character.next_correlation,
    }
}

/// What the library tells of a range check that stands for what the paper says of it.
fn looked_of(said: &paper::Looked) -> Looked {
    let (number, place) = match said.found {
        Ok(()) => (0, 0),
        Err(refusal) => (refusal.number, refusal.place as u64),
    };
    Looked {
        number,
        place,
        looked: said.looked as u64,
    }
}

/// What the library tells of a search that stands for what the paper says of it.
fn found_of(said: &paper::Finding) -> Found {
    let Block { answer, characters } = block_of(&said.heard);
    Found {
        answer,
        start: said.start as u32,
        characters,
    }
}

/// All eight records, those past the mode's empty.
fn eight(records: impl Iterator<Item = Character>) -> [Character; 8] {
    let mut all = [Character::default(); 8];
    for (place, record) in records.enumerate() {
        all[place] = record;
    }
    all
}

fn expect_equal<T: PartialEq + std::fmt::Debug>(
    what: &str,
    wanted: T,
    given: T,
) -> Result<(), String> {
    if wanted == given {
        Ok(())
    } else {
        Err(format!("{what}\n  wanted {wanted:?}\n  given  {given:?}"))
    }
}
