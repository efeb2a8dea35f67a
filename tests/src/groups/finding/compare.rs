//! Random runs: what is found is what the paper says. At the start found decode_block hears the same, and at every one before it
//! hears nothing clear; a block within demand 3's first bound is found where it was sent, or another before it.

use super::super::compare::draw::{self as limits, Wrong};
use super::super::tally::Tally;
use super::super::{expect_equal, found_of, lent::Lent, written, Report};
use super::block_found;
use super::draw::{self, Sent, SHORT};
use olivia_tests::library::{self, Block, Found};
use olivia_tests::paper::{self, LONGEST_RUN, SYMBOLS};
use olivia_tests::random::Random;

/// Runs of each mode.
const REPEATS: usize = 500;

const KINDS: [&str; 14] = [
    "refused with 1",
    "with 2",
    "with 7",
    "with 9",
    "with 8",
    "with 13",
    "found where a block was sent",
    "before that",
    "in noise alone",
    "at the first start",
    "at the last of several",
    "behind the first block the second where it was sent",
    "runs of 64 tones searched",
    "of 4,096 tones",
];

pub fn run(random: &mut Random) -> Report {
    let mut tally = Tally::new(KINDS);
    for b in (1..=8).flat_map(|b| [b; REPEATS]) {
        let case = Case::draw(random, b);
        let met = case.run();
        tally.add(met.map_err(|difference| format!("{case:?}: {difference}"))?);
    }
    tally.expect_often()?;
    Ok(tally.line("runs"))
}

#[derive(Clone, Debug)]
struct Case {
    mode: u32,
    least_lead: u32,
    run: Vec<u16>,
    sent: Vec<Sent>,
    room: usize,
}

impl Case {
    fn draw(random: &mut Random, b: usize) -> Self {
        let wrong = Wrong::draw(random);
        let least_lead = draw::least_lead(random, wrong.lead);
        let (run, sent) = draw::run(random, b, least_lead, &wrong);
        Case {
            mode: limits::mode(random, b, wrong.mode),
            least_lead,
            run,
            sent,
            room: limits::room(random, b, wrong.room),
        }
    }

    /// Makes the calls, and answers with the kinds of the run.
    fn run(&self) -> Result<[bool; KINDS.len()], String> {
        let found = self.find()?;
        let number = found.answer.number;
        let (is_found, is_searched) = (number == 0, [0, 13].contains(&number));
        if is_searched {
            self.expect_by_blocks(found)?;
        }
        let start = found.start as usize;
        let sent = self.sent.first().map(|sent| sent.start);
        Ok([
            number == 1,
            number == 2,
            number == 7,
            number == 9,
            number == 8,
            number == 13,
            is_found && sent == Some(start),
            is_found && sent.is_some_and(|sent| start < sent),
            is_found && sent.is_none(),
            is_found && start == 0,
            is_found && start > 0 && start + SYMBOLS == self.run.len(),
            is_found && sent == Some(start) && self.is_second_found_behind(start)?,
            is_searched && self.run.len() == SYMBOLS,
            is_searched && self.run.len() == LONGEST_RUN,
        ])
    }

    /// What the library finds, which is what the paper says and what the blocks sent call for.
    fn find(&self) -> Result<Found, String> {
        let mut run = Lent::input(&self.run);
        let mut codes = Lent::output(self.room);
        let given = library::find_block(self.mode, self.least_lead, run.part(), codes.part());
        let said = paper::find_block(self.mode, self.least_lead, &self.run, self.room);
        expect_equal("answer", found_of(&said), given)?;
        codes.expect("codes", written(&said.heard.text))?;
        run.expect("run handed in", &self.run)?;
        self.expect_sent(given, codes.part())?;
        Ok(given)
    }

    /// The first block sent is found, with its text, unless another is before it.
    fn expect_sent(&self, found: Found, codes: &[u8]) -> Result<(), String> {
        let Some(sent) = self.sent.first() else {
            return Ok(());
        };
        let start = found.start as usize;
        match found.answer.number {
            0 if start == sent.start => {
                expect_equal("text sent", &sent.text[..], &codes[..sent.text.len()])
            }
            0 => expect_equal("found before the block sent", true, start < sent.start),
            number => expect_equal("no start accepted", false, number == 13),
        }
    }

    /// At the start found decode_block gives the same, and at those before it, all if none was found, refusal 10.
    fn expect_by_blocks(&self, found: Found) -> Result<(), String> {
        let mut before = self.run.len() + 1 - SYMBOLS;
        if found.answer.number == 0 {
            before = found.start as usize;
            let block = self.hear(before)?;
            expect_equal("decode_block where found", block, block_found(found))?;
        }
        if self.run.len() > SHORT {
            return Ok(());
        }
        for start in 0..before {
            let number = self.hear(start)?.answer.number;
            expect_equal(&format!("decode_block at start {start}"), 10, number)?;
        }
        Ok(())
    }

    /// What decode_block hears at a start. If it accepts, it writes the codes of its records.
    fn hear(&self, start: usize) -> Result<Block, String> {
        let tones = &self.run[start..start + SYMBOLS];
        let mut codes = Lent::output(self.room);
        let block = library::decode_block(self.mode, self.least_lead, tones, codes.part());
        let records = &block.characters[..block.answer.count as usize];
        let told: Vec<u8> = records.iter().map(|record| record.code as u8).collect();
        codes.expect("codes of decode_block", &told)?;
        Ok(block)
    }

    /// Searches the run from the tone after the start of its first block on, if a second was sent.
    fn is_second_found_behind(&self, start: usize) -> Result<bool, String> {
        let Some(second) = self.sent.get(1) else {
            return Ok(false);
        };
        let sent = Sent {
            start: second.start - start - 1,
            text: second.text.clone(),
        };
        let rest = Case {
            run: self.run[start + 1..].to_vec(),
            sent: vec![sent.clone()],
            ..self.clone()
        };
        Ok(rest.find()?.start as usize == sent.start)
    }
}
