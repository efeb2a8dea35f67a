//! Blocks of 64 tones: what the check tells, beside decode_block and decode_weighted with all other limits kept.

use super::super::compare::range::spoil;
use super::super::compare::{draw, weighted};
use super::super::tally::Tally;
use super::super::{expect_equal, lent::Lent, Report};
use super::{check, refused, told};
use olivia_tests::library::{self, Block};
use olivia_tests::paper::SYMBOLS;
use olivia_tests::random::Random;

/// Blocks of each mode.
const REPEATS: usize = 3000;

const KINDS: [&str; 7] = [
    "refused with 8 by all three",
    "at the first tone",
    "at the last",
    "clear",
    "unclear",
    "clear with weights",
    "unclear with weights",
];

pub fn run(random: &mut Random) -> Report {
    let mut tally = Tally::new(KINDS);
    for b in (1..=8).flat_map(|b| [b; REPEATS]) {
        let case = Case::draw(random, b);
        let met = case.run();
        tally.add(met.map_err(|difference| format!("{case:?}: {difference}"))?);
    }
    tally.expect_often()?;
    Ok(tally.line("blocks"))
}

#[derive(Debug)]
struct Case {
    b: usize,
    least_lead: u32,
    weighted_lead: u32,
    /// The tones without bad ones, and with them.
    right: Vec<u16>,
    tones: Vec<u16>,
    weights: Vec<u8>,
}

impl Case {
    /// Half of the blocks have bad tones.
    fn draw(random: &mut Random, b: usize) -> Self {
        let text: Vec<u8> = (0..b).map(|_| random.code()).collect();
        let least_lead = draw::least_lead(random, false);
        let right = draw::heard(random, b, &text, least_lead);
        let mut tones = right.clone();
        if random.one_in(2) {
            spoil(random, b, &mut tones);
        }
        Case {
            b,
            least_lead,
            weighted_lead: weighted::least_lead(random, false),
            right,
            tones,
            weights: weighted::right_weights(random),
        }
    }

    /// Compares the three calls, and answers with the kinds of the block.
    fn run(&self) -> Result<[bool; KINDS.len()], String> {
        let mode = self.b as u32;
        let looked = check(mode, &self.tones)?;
        expect_equal("check", told(&self.right, &self.tones), looked)?;
        let wanted = refused(looked).map(|answer| Block {
            answer,
            ..Block::default()
        });
        let plain =
            self.hear(|tones, codes| library::decode_block(mode, self.least_lead, tones, codes))?;
        let weighted = self.hear(|tones, codes| {
            library::decode_weighted(mode, self.weighted_lead, tones, &self.weights, codes)
        })?;
        for (entry, block) in [("decode_block", plain), ("decode_weighted", weighted)] {
            let given = (block.answer.number == 8).then_some(block);
            expect_equal(&format!("{entry} beside the check"), wanted, given)?;
        }
        let is_refused = looked.number == 8;
        Ok([
            is_refused,
            is_refused && looked.place == 0,
            is_refused && looked.place == SYMBOLS as u64 - 1,
            plain.answer.number == 0,
            plain.answer.number == 10,
            weighted.answer.number == 0,
            weighted.answer.number == 10,
        ])
    }

    /// What an entry hears of the tones, which it leaves as they were. It writes codes only if it accepts them.
    fn hear(&self, entry: impl Fn(&[u16], &mut [u8]) -> Block) -> Result<Block, String> {
        let mut tones = Lent::input(&self.tones);
        let mut codes = Lent::output(self.b);
        let block = entry(tones.part(), codes.part());
        let written = match block.answer.number {
            0 => codes.part().to_vec(),
            _ => vec![],
        };
        codes.expect("codes", &written)?;
        tones.expect("tones handed in", &self.tones)?;
        Ok(block)
    }
}
