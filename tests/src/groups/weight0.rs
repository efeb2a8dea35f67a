//! A tone of weight 0 counts like a missing one, whatever it is, and a missing one counts the same whatever its weight is. Both are
//! checked all the same.

use super::compare::draw::wrong_tone;
use super::compare::weighted::{least_lead, wrong_weight};
use super::damage::AIMS;
use super::weighing::{damages, weighed, Weighed, SHARES};
use super::{expect_equal, lent::Lent, Report};
use olivia_tests::library::{self, Answer, Block};
use olivia_tests::paper::{self, MISSING, SYMBOLS};
use olivia_tests::random::Random;

const SEED: u64 = 7;

/// Blocks of each mode.
const REPEATS: usize = 2000;

pub fn run() -> Report {
    let mut random = Random::new(SEED);
    let (mut clear, mut unclear) = (0, 0);
    for b in (1..=8).flat_map(|b| [b; REPEATS]) {
        let case = Case::draw(&mut random, b);
        let met = case.run(&mut random);
        match met.map_err(|difference| format!("{case:?}: {difference}"))? {
            0 => clear += 1,
            _ => unclear += 1,
        }
    }
    expect_equal("clear and unclear blocks", true, clear > 0 && unclear > 0)?;
    let blocks = clear + unclear;
    Ok(format!(
        "{blocks} blocks in 5 forms, {clear} clear, {unclear} unclear; {blocks} refused with 8, {blocks} with 14"
    ))
}

#[derive(Debug)]
struct Case {
    b: usize,
    least_lead: u32,
    heard: Weighed,
    /// Where nothing is heard, in any order.
    places: Vec<usize>,
}

impl Case {
    fn draw(random: &mut Random, b: usize) -> Self {
        let text: Vec<u8> = (0..b).map(|_| random.code()).collect();
        let least_lead = least_lead(random, false);
        let damage = random.pick(&damages(least_lead as usize));
        let (share, aim) = (random.pick(&SHARES), random.pick(&AIMS));
        let most = random.pick(&[1, 4, 16, SYMBOLS]);
        let mut places = random.shuffled(SYMBOLS);
        places.truncate(random.between(1, most));
        Case {
            b,
            least_lead,
            heard: weighed(random, b, &text, damage, share, aim),
            places,
        }
    }

    /// The block with other tones and weights at the places.
    fn with(&self, mut change: impl FnMut(&mut u16, &mut u8)) -> Weighed {
        let mut heard = self.heard.clone();
        for &t in &self.places {
            change(&mut heard.tones[t], &mut heard.weights[t]);
        }
        heard
    }

    /// Compares the forms of the block, and answers with the number of their answer.
    fn run(&self, random: &mut Random) -> Result<u32, String> {
        let (wanted, codes) = self.hear(&self.with(|_, weight| *weight = 0))?;
        let any_tone = |random: &mut Random| random.below(paper::tone_count(self.b)) as u16;
        let forms = [
            self.with(|tone, _| *tone = MISSING),
            self.with(|tone, weight| (*tone, *weight) = (MISSING, 0)),
            self.with(|tone, weight| (*tone, *weight) = (MISSING, 15)),
            self.with(|tone, weight| (*tone, *weight) = (any_tone(random), 0)),
        ];
        for form in forms {
            let (given, given_codes) = self.hear(&form)?;
            expect_equal(&format!("heard of {form:?}"), wanted, given)?;
            expect_equal(&format!("codes of {form:?}"), &codes, &given_codes)?;
        }
        let bad_tones =
            self.with(|tone, weight| (*tone, *weight) = (wrong_tone(random, self.b), 0));
        self.expect_refused(8, &bad_tones)?;
        let bad_weights =
            self.with(|tone, weight| (*tone, *weight) = (MISSING, wrong_weight(random)));
        self.expect_refused(14, &bad_weights)?;
        Ok(wanted.answer.number)
    }

    /// What the library hears, and the codes that it writes.
    fn hear(&self, heard: &Weighed) -> Result<(Block, Vec<u8>), String> {
        let mut codes = Lent::output(self.b);
        let block = library::decode_weighted(
            self.b as u32,
            self.least_lead,
            &heard.tones,
            &heard.weights,
            codes.part(),
        );
        let given = match block.answer.number {
            0 => codes.part().to_vec(),
            _ => vec![],
        };
        codes.expect("codes", &given)?;
        Ok((block, given))
    }

    /// The lowest of the places is refused.
    fn expect_refused(&self, number: u32, heard: &Weighed) -> Result<(), String> {
        let lowest = self.places.iter().min().expect("a place");
        let answer = Answer {
            number,
            place: *lowest as u32,
            ..Answer::default()
        };
        let wanted = Block {
            answer,
            ..Block::default()
        };
        let (given, _) = self.hear(heard)?;
        expect_equal(&format!("heard of {heard:?}"), wanted, given)
    }
}
