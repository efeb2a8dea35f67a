//! Runs: with a greater set lead the same block is found, or a later one, or none.

use super::super::compare::draw as limits;
use super::super::finding::draw;
use super::super::lent::Lent;
use super::super::tally::Tally;
use super::super::{expect_equal, Report};
use super::{chain, raise, wrong};
use olivia_tests::library::{self, Found};
use olivia_tests::paper::SYMBOLS;
use olivia_tests::random::Random;

/// Runs of each mode.
const REPEATS: usize = 300;

/// Of the steps from one set lead to the next.
const KINDS: [&str; 5] = [
    "the same block found",
    "a later one",
    "none any more",
    "13 stays",
    "another refusal stays",
];

#[derive(Debug)]
struct Case {
    mode: u32,
    run: Vec<u16>,
    room: usize,
    leads: Vec<u32>,
}

/// An answer with its start and records, and the codes written.
#[derive(Clone, Debug, PartialEq)]
struct Given {
    found: Found,
    codes: Vec<u8>,
}

pub fn run(random: &mut Random) -> Report {
    let mut tally = Tally::new(KINDS);
    for b in (1..=8).flat_map(|b| [b; REPEATS]) {
        let case = Case::draw(random, b);
        let met = case.run(&mut tally);
        met.map_err(|difference| format!("{case:?}: {difference}"))?;
    }
    tally.expect_often()?;
    let line = tally.line("steps of runs");
    Ok(format!("{} runs, {line}", 8 * REPEATS))
}

impl Case {
    fn draw(random: &mut Random, b: usize) -> Self {
        let wrong = wrong(random);
        let least_lead = draw::least_lead(random, false);
        let (run, _) = draw::run(random, b, least_lead, &wrong);
        Case {
            mode: limits::mode(random, b, wrong.mode),
            run,
            room: limits::room(random, b, wrong.room),
            leads: chain(random, 64, &[least_lead]),
        }
    }

    fn run(&self, tally: &mut Tally<{ KINDS.len() }>) -> Result<(), String> {
        let find = |least_lead| self.find(least_lead);
        raise(&self.leads, find, |least_lead, before, after| {
            tally.add(self.step(least_lead, before, after)?);
            Ok(())
        })
    }

    /// What is found at this set lead. A refusal leaves the output as it was.
    fn find(&self, least_lead: u32) -> Result<Given, String> {
        let mut run = Lent::input(&self.run);
        let mut output = Lent::output(self.room);
        let found = library::find_block(self.mode, least_lead, run.part(), output.part());
        let count = self.room.min(found.answer.count as usize);
        let codes = output.part()[..count].to_vec();
        output.expect("codes", &codes)?;
        run.expect("run handed in", &self.run)?;
        Ok(Given { found, codes })
    }

    /// What becomes of an answer at a greater set lead: it stays, or the block is unclear now, and a later one or none is found.
    fn step(
        &self,
        least_lead: u32,
        before: &Given,
        after: &Given,
    ) -> Result<[bool; KINDS.len()], String> {
        let (low, high) = (before.found.answer.number, after.found.answer.number);
        let stays = before == after;
        let is_later = (low, high) == (0, 0) && after.found.start > before.found.start;
        let is_none = (low, high) == (0, 13);
        if is_later || is_none {
            let start = before.found.start as usize;
            let tones = &self.run[start..start + SYMBOLS];
            let block = library::decode_block(self.mode, least_lead, tones, &mut [0; 8]);
            expect_equal("decode_block where found before", 10, block.answer.number)?;
            let (records, same) = (before.found.characters, block.characters);
            expect_equal("records where found before", records, same)?;
        } else {
            expect_equal("answer, start, records and codes", before, after)?;
        }
        Ok([
            stays && low == 0,
            is_later,
            is_none,
            stays && low == 13,
            stays && ![0, 13].contains(&low),
        ])
    }
}
