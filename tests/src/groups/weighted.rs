//! Demand 3 with weights: a damaged block gives the same text up to the first bound, and no other text up to the second.

use super::damage::{Aim, AIMS};
use super::receivers::{self, expect_sent_and_first, Bounds, Met, Tally};
use super::weighing::{damages, weighed, Share, Weighed, SHARES};
use super::{expect_equal, lent::Lent, Report};
use olivia_tests::library;
use olivia_tests::paper::{self, GREATEST_LEAD};
use olivia_tests::random::Random;

const SEED: u64 = 5;
const LEADS: [usize; 16] = [
    1, 2, 3, 14, 15, 16, 64, 65, 240, 479, 480, 481, 720, 945, 959, 960,
];

/// Blocks for each mode, set lead, D, share and aim.
const REPEATS: usize = 8;

/// What was met on the bounds themselves, in all modes.
#[derive(Default)]
struct Edge {
    first: usize,
    second: usize,
    second_other_text: usize,
}

pub fn run() -> Report {
    let mut random = Random::new(SEED);
    let mut edge = Edge::default();
    let mut lines = String::new();
    let (mut blocks, mut other_text) = (0, 0);
    for b in 1..=8 {
        let tally = one_mode(&mut random, b, &mut edge)?;
        blocks += tally.blocks;
        other_text += tally.other_text;
        lines += &tally.line(b);
    }
    expect_equal("another text beyond the second bound", true, other_text > 0)?;
    Ok(format!("{blocks} cases{}{lines}", edge.line()))
}

fn one_mode(random: &mut Random, b: usize, edge: &mut Edge) -> Result<Tally, String> {
    let mut tally = Tally::default();
    for least_lead in LEADS {
        for damage in damages(least_lead) {
            for share in SHARES {
                for aim in AIMS {
                    for _ in 0..REPEATS {
                        let case = Case::draw(random, b, least_lead, damage, share, aim);
                        let met = case.run();
                        let met = met.map_err(|difference| format!("{case:?}: {difference}"))?;
                        tally.add(case.bounds(), met);
                        edge.add(&case, met);
                    }
                }
            }
        }
    }
    Ok(tally)
}

impl Edge {
    fn add(&mut self, case: &Case, met: Met) {
        let (twice, whole) = (2 * case.damage, GREATEST_LEAD as usize);
        let is_second = twice == whole + case.least_lead;
        self.first += usize::from(twice + case.least_lead == whole);
        self.second += usize::from(is_second);
        self.second_other_text += usize::from(is_second && met == Met::OtherText);
    }

    fn line(&self) -> String {
        format!(
            "\n  {} with 960 - 2 D just m; {} of the {} with 2 D just 960 + m have another text",
            self.first, self.second_other_text, self.second
        )
    }
}

#[derive(Debug)]
struct Case {
    b: usize,
    least_lead: usize,
    damage: usize,
    text: Vec<u8>,
    heard: Weighed,
}

impl Case {
    fn draw(
        random: &mut Random,
        b: usize,
        least_lead: usize,
        damage: usize,
        share: Share,
        aim: Aim,
    ) -> Self {
        let text: Vec<u8> = (0..b).map(|_| random.code()).collect();
        let heard = weighed(random, b, &text, damage, share, aim);
        Case {
            b,
            least_lead,
            damage,
            text,
            heard,
        }
    }

    fn bounds(&self) -> Bounds {
        Bounds {
            keeps_text: paper::keeps_text(self.damage, self.least_lead),
            shuts_out_others: paper::shuts_out_others(self.damage, self.least_lead),
        }
    }

    fn run(&self) -> Result<Met, String> {
        let (mode, least_lead) = (self.b as u32, self.least_lead as u32);
        let Weighed { tones, weights } = &self.heard;
        let mut sent = Lent::output(paper::SYMBOLS);
        let mut first = Lent::output(self.b);
        let mut second = Lent::output(self.b);
        let trial = library::weighted_trial_run(
            mode,
            least_lead,
            &self.text,
            tones,
            weights,
            sent.part(),
            [first.part(), second.part()],
        );
        expect_sent_and_first(&self.text, [trial.encoded, trial.first], &sent, &first)?;
        let said = paper::damage(&paper::block_tones(self.b, &self.text), tones, weights);
        expect_equal("D, by the paper", self.damage, said)?;
        expect_equal("D", self.damage, trial.damage as usize)?;

        let mut codes = Lent::output(self.b);
        let block = library::decode_weighted(mode, least_lead, tones, weights, codes.part());
        expect_equal(
            "decode_weighted beside the trial",
            trial.second,
            block.answer,
        )?;
        let met = receivers::second(&self.text, self.least_lead, &block, &mut codes, &second)?;
        self.bounds().expect(met)?;
        Ok(met)
    }
}
