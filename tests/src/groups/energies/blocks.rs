//! Random blocks: every energy equals the total, and the correlations that the records tell are within it. A word is the winner, and
//! has a lead of 2 or more, if twice the square of its correlation exceeds the total.

use super::super::compare::{draw, weighted as weighing};
use super::super::damage::even_missing;
use super::super::tally::Tally;
use super::super::{expect_equal, Report};
use super::call::Call;
use olivia_tests::library::{self, Block, Character, Energies};
use olivia_tests::paper::{self, MISSING, PLAIN, SYMBOLS};
use olivia_tests::random::Random;

/// Blocks of each mode.
const REPEATS: usize = 1500;

/// Of the characters: the first, third and fourth are all of them.
const KINDS: [&str; 8] = [
    "the only best by twice its square",
    "unclear at m all the same",
    "not the only best by it, with a lead",
    "not the only best by it, and tied",
    "two words with half the total each",
    "total 0",
    "some tones missing",
    "winner and runner-up have the whole total",
];

pub fn plain(random: &mut Random) -> Report {
    let draw = |random: &mut Random, b: usize| {
        let text: Vec<u8> = (0..b).map(|_| random.code()).collect();
        let least_lead = draw::least_lead(random, false);
        Case {
            least_lead,
            call: Call {
                mode: b as u32,
                tones: tones(random, b, &text, least_lead),
                weights: None,
            },
        }
    };
    many(random, draw, "characters of plain blocks")
}

pub fn weighted(random: &mut Random) -> Report {
    let draw = |random: &mut Random, b: usize| {
        let text: Vec<u8> = (0..b).map(|_| random.code()).collect();
        let least_lead = weighing::least_lead(random, false);
        let right = draw::Wrong::default();
        let mut heard = weighing::heard(random, b, &text, least_lead, &right, &right);
        if random.one_in(8) {
            heard.tones = tones(random, b, &text, least_lead / 15);
        }
        Case {
            least_lead,
            call: Call {
                mode: b as u32,
                tones: heard.tones,
                weights: Some(heard.weights),
            },
        }
    };
    many(random, draw, "characters of weighted blocks")
}

fn many(random: &mut Random, draw: impl Fn(&mut Random, usize) -> Case, what: &str) -> Report {
    let mut tally = Tally::new(KINDS);
    for b in (1..=8).flat_map(|b| [b; REPEATS]) {
        let case = draw(random, b);
        let met = case.run();
        for kinds in met.map_err(|difference| format!("{case:?}: {difference}"))? {
            tally.add(kinds);
        }
    }
    tally.expect_often()?;
    Ok(format!("{} blocks, {}", 8 * REPEATS, tally.line(what)))
}

/// A block as heard, at times with nothing heard, or with what leaves two words at half the total.
fn tones(random: &mut Random, b: usize, text: &[u8], least_lead: u32) -> Vec<u16> {
    match random.below(16) {
        0 => vec![MISSING; SYMBOLS],
        1 => even_missing(paper::block_tones(b, text), SYMBOLS / 2),
        _ => draw::heard(random, b, text, least_lead),
    }
}

#[derive(Debug)]
struct Case {
    least_lead: u32,
    call: Call,
}

impl Case {
    /// Makes the calls, and answers with the kinds of each character.
    fn run(&self) -> Result<Vec<[bool; KINDS.len()]>, String> {
        let Call { mode, tones, .. } = &self.call;
        let b = *mode as usize;
        let given = self.call.run()?;
        expect_equal("number", 0, given.number)?;
        expect_equal("sums", &vec![given.total; b][..], &given.sums[..b])?;
        let weights = self.call.weights.as_deref().unwrap_or(&PLAIN);
        let correlations = paper::correlations(b, tones, weights);
        let block = self.hear();
        let characters = block.characters.iter().zip(&correlations);
        characters
            .map(|(record, correlations)| self.kinds(given, record, correlations))
            .collect()
    }

    /// The records of the block.
    fn hear(&self) -> Block {
        let Call { mode, tones, .. } = &self.call;
        let mut codes = [0; 8];
        match &self.call.weights {
            None => library::decode_block(*mode, self.least_lead, tones, &mut codes),
            Some(weights) => {
                library::decode_weighted(*mode, self.least_lead, tones, weights, &mut codes)
            }
        }
    }

    fn kinds(
        &self,
        energies: Energies,
        record: &Character,
        correlations: &[i32],
    ) -> Result<[bool; KINDS.len()], String> {
        let total = energies.total;
        let square = |correlation: i32| correlation.unsigned_abs().pow(2);
        let (winner, next) = (square(record.correlation), square(record.next_correlation));
        expect_equal("winner and runner-up within", true, winner + next <= total)?;
        let above: Vec<u32> = (0..64)
            .filter(|&word| 2 * square(correlations[word as usize]) > total)
            .collect();
        let is_alone = 2 * winner > total;
        let wanted = if is_alone { vec![record.word] } else { vec![] };
        expect_equal("words above half the total", wanted, above)?;
        if is_alone {
            expect_equal("a lead of 2 or more", true, record.lead >= 2)?;
        }
        let is_tied = record.lead == 0;
        Ok([
            is_alone,
            is_alone && record.lead < self.least_lead,
            !is_alone && !is_tied,
            !is_alone && is_tied,
            total > 0 && 2 * winner == total && is_tied,
            total == 0,
            self.call.tones.contains(&MISSING),
            total > 0 && winner + next == total,
        ])
    }
}
