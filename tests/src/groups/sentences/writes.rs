//! Random sentences to be written: answers and whole outputs, with what lies around them.

use super::super::compare::draw::{room, Wrong};
use super::super::tally::Tally;
use super::super::Report;
use super::call::Write;
use super::damaged;
use olivia_tests::paper::{rows, Row, GREATEST_LEAD, GREATEST_PLACE};
use olivia_tests::random::Random;

const CALLS: usize = 300_000;

/// What a call came to, and what it met.
const KINDS: [&str; 11] = [
    "written",
    "with a lead",
    "into just enough bytes",
    "refused with 20",
    "for the number",
    "for the place",
    "for the lead",
    "for a lead that it has not",
    "refused with 9",
    "one byte short",
    "20 before 9",
];

pub fn run(random: &mut Random) -> Report {
    let mut tally = Tally::new(KINDS);
    for _ in 0..CALLS {
        tally.add(Drawn::draw(random).kinds()?);
    }
    tally.expect_often()?;
    Ok(tally.line("random calls of writing"))
}

/// A call, the row that it was drawn for, and the length of what it asks for there.
struct Drawn {
    call: Write,
    row: Row,
    length: usize,
}

impl Drawn {
    /// Wrong in number, place, lead or room as often as a block is in mode, count, lead and room.
    fn draw(random: &mut Random) -> Self {
        let wrong = Wrong::draw(random);
        let row = random.pick(rows());
        let place = place(random, wrong.count);
        let lead = lead(random, row.has_lead(), wrong.lead);
        let length = row.sentence(place, lead).len();
        let call = Write {
            number: number(random, row.number, wrong.mode),
            place,
            lead,
            room: room(random, length, wrong.room),
        };
        Drawn { call, row, length }
    }

    fn kinds(&self) -> Result<[bool; KINDS.len()], String> {
        let Write {
            number,
            place,
            lead,
            room,
        } = self.call;
        let given = self.call.run()?;
        let (is_20, is_9) = (given == Err(20), given == Err(9));
        Ok([
            given.is_ok(),
            given.is_ok() && lead > 0,
            given.is_ok() && room == self.length,
            is_20,
            is_20 && number != self.row.number,
            is_20 && place > GREATEST_PLACE,
            is_20 && lead > GREATEST_LEAD,
            is_20 && !self.row.has_lead() && (1..=GREATEST_LEAD).contains(&lead),
            is_9,
            is_9 && room + 1 == self.length,
            is_20 && room < self.length,
        ])
    }
}

/// The number to hand in, or one that the list does not have: next to it, the same in its last 8 or 16 bits, or any.
fn number(random: &mut Random, right: u32, wrong: bool) -> u32 {
    let last = rows().len();
    match (wrong, random.below(4)) {
        (false, _) => right,
        (true, 0) => random.pick(&[0, last as u32 + 1, 99, 100, 255, u32::MAX]),
        (true, 1) => right + random.pick(&[256, 65_536, 1 << 24, 1 << 31]),
        (true, 2) => random.between(last + 1, 300) as u32,
        (true, _) => random.between(last + 1, u32::MAX as usize) as u32,
    }
}

fn place(random: &mut Random, wrong: bool) -> u32 {
    match (wrong, random.below(4)) {
        (false, _) => damaged::place(random),
        (true, 0) => random.pick(&[65_536, 65_537, 99_999, 100_000, 1 << 31, u32::MAX]),
        (true, 1) => 65_536 + damaged::place(random),
        (true, 2) => random.between(65_536, 70_000) as u32,
        (true, _) => random.between(65_536, u32::MAX as usize) as u32,
    }
}

fn lead(random: &mut Random, has_lead: bool, wrong: bool) -> u32 {
    match (wrong, has_lead, random.below(4)) {
        (false, true, _) => damaged::lead(random),
        (false, false, _) => 0,
        (true, false, 0 | 1) => random.between(1, GREATEST_LEAD as usize) as u32,
        (true, _, 0) => random.pick(&[961, 962, 999, 1000, 1023, 1024, u32::MAX]),
        (true, _, 1) => random.between(961, 1100) as u32,
        (true, _, 2) => 65_536 + damaged::lead(random),
        (true, ..) => random.between(961, u32::MAX as usize) as u32,
    }
}
