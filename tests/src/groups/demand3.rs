//! Demand 3: a damaged block gives the same text up to the first bound, and no other text up to the second.

use super::damage::{damaged, edges, Aim, Amount, AIMS};
use super::receivers::{self, expect_sent_and_first, Bounds, Met, Tally};
use super::{expect_equal, lent::Lent, Report};
use olivia_tests::library;
use olivia_tests::paper;
use olivia_tests::random::Random;

const SEED: u64 = 3;
const LEADS: [usize; 12] = [1, 2, 3, 4, 15, 16, 31, 32, 33, 48, 63, 64];

/// Blocks for each mode, set lead, amount of damage and aim.
const REPEATS: usize = 10;

pub fn run() -> Report {
    let mut random = Random::new(SEED);
    let mut lines = String::new();
    let mut blocks = 0;
    for b in 1..=8 {
        let tally = one_mode(&mut random, b)?;
        blocks += tally.blocks;
        lines += &tally.line(b);
    }
    Ok(format!("{blocks} cases{lines}"))
}

fn one_mode(random: &mut Random, b: usize) -> Result<Tally, String> {
    let mut tally = Tally::default();
    for least_lead in LEADS {
        let mut amounts = edges(|amount| amount.keeps_text(least_lead));
        amounts.extend(edges(|amount| amount.shuts_out_others(least_lead)));
        for amount in amounts {
            for aim in AIMS {
                for _ in 0..REPEATS {
                    let case = Case::draw(random, b, least_lead, amount, aim);
                    let met = case.run();
                    tally.add(
                        case.bounds(),
                        met.map_err(|difference| format!("{case:?}: {difference}"))?,
                    );
                }
            }
        }
    }
    Ok(tally)
}

#[derive(Debug)]
struct Case {
    b: usize,
    least_lead: usize,
    amount: Amount,
    text: Vec<u8>,
    heard: Vec<u16>,
}

impl Case {
    fn draw(random: &mut Random, b: usize, least_lead: usize, amount: Amount, aim: Aim) -> Self {
        let text: Vec<u8> = (0..b).map(|_| random.code()).collect();
        let heard = damaged(random, b, &text, amount, aim);
        Case {
            b,
            least_lead,
            amount,
            text,
            heard,
        }
    }

    fn bounds(&self) -> Bounds {
        Bounds {
            keeps_text: self.amount.keeps_text(self.least_lead),
            shuts_out_others: self.amount.shuts_out_others(self.least_lead),
        }
    }

    fn run(&self) -> Result<Met, String> {
        let (mode, least_lead) = (self.b as u32, self.least_lead as u32);
        let mut tones = Lent::output(paper::SYMBOLS);
        let mut first = Lent::output(self.b);
        let mut second = Lent::output(self.b);
        let trial = library::trial_run(
            mode,
            least_lead,
            &self.text,
            &self.heard,
            tones.part(),
            first.part(),
            second.part(),
        );
        expect_sent_and_first(&self.text, [trial.encoded, trial.first], &tones, &first)?;
        expect_equal("replaced", self.amount.replaced, trial.replaced as usize)?;
        expect_equal("missing", self.amount.missing, trial.missing as usize)?;

        let mut codes = Lent::output(self.b);
        let block = library::decode_block(mode, least_lead, &self.heard, codes.part());
        expect_equal("decode_block beside the trial", trial.second, block.answer)?;
        let met = receivers::second(&self.text, self.least_lead, &block, &mut codes, &second)?;
        self.bounds().expect(met)?;
        Ok(met)
    }
}
