//! Plain hearing is a case of hearing with weights: "its case with weight 15 at lead 15 × m, correlations and leads divided by 15"
//! (document 02, order 3). With weight 1 throughout at lead m it is that case with the division made.

use super::compare::block::tones_to_hear;
use super::compare::draw::{self, Wrong};
use super::{expect_equal, lent::Lent, Report};
use olivia_tests::library::{self, Answer, Block, Character};
use olivia_tests::paper::SYMBOLS;
use olivia_tests::random::Random;
use std::collections::BTreeMap;

const SEED: u64 = 6;

/// Blocks for each set lead and mode.
const REPEATS: usize = 60;

/// Every set lead of plain hearing, and some that it refuses: 15 times the last is the largest number of 32 bits.
fn leads() -> impl Iterator<Item = u32> {
    (0..=66).chain([960, u32::MAX / 15])
}

pub fn run() -> Report {
    let mut random = Random::new(SEED);
    let mut by_number: BTreeMap<u32, usize> = BTreeMap::new();
    let (mut at_15, mut at_1) = (0, 0);
    for least_lead in leads() {
        for b in (1..=8).flat_map(|b| [b; REPEATS]) {
            let case = Case::draw(&mut random, b, least_lead);
            let met = case.run();
            let number = met.map_err(|difference| format!("{case:?}: {difference}"))?;
            *by_number.entry(number).or_default() += 1;
            at_15 += 1;
            at_1 += usize::from(case.is_the_same_at_1());
        }
    }
    let numbers: Vec<u32> = by_number.keys().copied().collect();
    expect_equal("answers met", &[0, 1, 2, 7, 8, 9, 10][..], &numbers)?;
    let counts: Vec<String> = by_number
        .iter()
        .map(|(number, count)| format!("{number}: {count}"))
        .collect();
    Ok(format!(
        "{at_15} blocks at weight 15, {at_1} of them at weight 1 too, {}",
        counts.join(", ")
    ))
}

#[derive(Debug)]
struct Case {
    mode: u32,
    least_lead: u32,
    tones: Vec<u16>,
    room: usize,
}

impl Case {
    /// Limits other than that of the lead are broken too.
    fn draw(random: &mut Random, b: usize, least_lead: u32) -> Self {
        let wrong = Wrong::draw(random);
        let text: Vec<u8> = (0..b).map(|_| random.code()).collect();
        Case {
            mode: draw::mode(random, b, wrong.mode),
            least_lead,
            tones: tones_to_hear(random, b, &text, least_lead, &wrong),
            room: draw::room(random, b, wrong.room),
        }
    }

    /// A lead from 65 to 960 is refused without weights alone.
    fn is_the_same_at_1(&self) -> bool {
        !(65..=960).contains(&self.least_lead)
    }

    /// Compares the calls, and answers with the number of their answer.
    fn run(&self) -> Result<u32, String> {
        let mut codes = Lent::output(self.room);
        let plain = library::decode_block(self.mode, self.least_lead, &self.tones, codes.part());
        let count = self.room.min(plain.answer.count as usize);
        let given = codes.part()[..count].to_vec();
        codes.expect("codes", &given)?;
        self.expect_weighted(15, 15 * self.least_lead, times_15(plain), &given)?;
        if self.is_the_same_at_1() {
            self.expect_weighted(1, self.least_lead, plain, &given)?;
        }
        Ok(plain.answer.number)
    }

    fn expect_weighted(
        &self,
        weight: u8,
        least_lead: u32,
        wanted: Block,
        given: &[u8],
    ) -> Result<(), String> {
        let mut codes = Lent::output(self.room);
        let weights = [weight; SYMBOLS];
        let weighted =
            library::decode_weighted(self.mode, least_lead, &self.tones, &weights, codes.part());
        expect_equal(&format!("heard with weight {weight}"), wanted, weighted)?;
        codes.expect(&format!("codes with weight {weight}"), given)
    }
}

/// The same answer with leads and correlations 15 times as large.
fn times_15(block: Block) -> Block {
    Block {
        answer: Answer {
            lead: 15 * block.answer.lead,
            ..block.answer
        },
        characters: block.characters.map(|record| Character {
            lead: 15 * record.lead,
            correlation: 15 * record.correlation,
            next_correlation: 15 * record.next_correlation,
            ..record
        }),
    }
}
