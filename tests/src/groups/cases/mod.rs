//! Fixed calls of the entries of a block and of a message, held against the stored line of each.

mod block;
mod message;

use super::{expect_equal, Report};
use olivia_tests::library::{self, Answer};
use olivia_tests::paper;
use std::hint::black_box;

const BLOCK: &str = include_str!("../../../data/block-cases.txt");
const MESSAGE: &str = include_str!("../../../data/message-cases.txt");

/// A tone of no mode, and no missing mark either.
const NO_TONE: u16 = 65534;

pub fn run() -> Report {
    let block = expect_lines("tests/data/block-cases.txt", BLOCK, &block::lines())?;
    let message = expect_lines("tests/data/message-cases.txt", MESSAGE, &message::lines())?;
    Ok(format!(
        "{block} lines of a block's, {message} of a message's"
    ))
}

/// Compares line by line, where a missing or an extra one differs, and answers with the count.
fn expect_lines(file: &str, stored: &str, given: &[String]) -> Result<usize, String> {
    let stored: Vec<&str> = stored.split_terminator('\n').collect();
    for place in 0..stored.len().max(given.len()) {
        let wanted = stored.get(place).copied();
        let line = given.get(place).map(String::as_str);
        expect_equal(&format!("{file}, line {}", place + 1), wanted, line)?;
    }
    Ok(stored.len())
}

/// A cell of an output, which has a mark before a call.
trait Cell: Copy + PartialEq {
    /// Varying, and never a value that an output may hold.
    fn mark(place: usize) -> Self;
}

impl Cell for u16 {
    fn mark(place: usize) -> u16 {
        1000 + (place % 60_000) as u16
    }
}

impl Cell for u8 {
    fn mark(place: usize) -> u8 {
        200 + (place % 50) as u8
    }
}

fn marked<T: Cell>(cells: usize) -> Vec<T> {
    (0..cells).map(T::mark).collect()
}

/// The place from which on every mark is kept.
fn kept_from<T: Cell>(output: &[T]) -> usize {
    // The compiler is not to reason that a cell beyond the room that was lent cannot have changed.
    let mut cells = black_box(output).iter().enumerate();
    let last = cells.rposition(|(place, &cell)| cell != T::mark(place));
    last.map_or(0, |place| place + 1)
}

/// An answer in words, with what was written if it is acceptance, else with what is told of the refusal.
fn answered<T: Cell>(answer: Answer, written: &str, told: &str, output: &[T]) -> String {
    let (place, lead, kept) = (answer.place, answer.lead, kept_from(output));
    match answer.number {
        0 => format!("accepted {}{written} kept from {kept}", answer.count),
        number => format!("refused {number} place {place} lead {lead}{told} kept from {kept}"),
    }
}

/// The tones of blocks with these codes, each block encoded into all that is left of the output.
fn blocks(mode: u32, codes: &[u8]) -> Vec<u16> {
    let b = mode as usize;
    let mut tones = vec![0; paper::SYMBOLS * codes.len() / b];
    for (index, block) in codes.chunks(b).enumerate() {
        library::encode_block(mode, block, &mut tones[paper::SYMBOLS * index..]);
    }
    tones
}
