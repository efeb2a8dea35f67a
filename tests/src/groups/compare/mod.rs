//! The library against the paper on random inputs: whole answers, whole outputs with what lies around them, and inputs unchanged.

pub mod block;
pub mod draw;
mod energy;
mod find;
pub mod frequency;
mod locate;
pub mod message;
mod queue;
pub mod range;
mod records;
mod tally;
mod trial;
pub mod weighted;
mod weighted_trial;

use super::Report;
use olivia_tests::random::Random;
use records::Kinds;
use std::fmt::Debug;
use tally::Tally;

const SEED: u64 = 2;

/// The inputs of one call.
trait Case: Debug {
    const FUNCTION: &'static str;

    /// The refusals that the function can give.
    const REFUSALS: &'static [u32];

    /// Pairs of refusals of which a case breaks both limits, and is given the first.
    const ORDERS: &'static [Order] = &[];

    /// What else a call can come to.
    const OUTCOMES: &'static [&'static str] = &[];

    fn draw(random: &mut Random) -> Self;

    fn mode(&self) -> u32;

    /// Makes the call, and answers with what both sides gave.
    fn compare(&self) -> Result<Met, String>;
}

/// A refusal that was given, and one that was not, though its limit is broken too.
type Order = (u32, u32);

/// What both sides gave: the numbers of their answers, the kinds of each record in them, which checks came before others, and for
/// each of the function's outcomes whether it came to that.
struct Met {
    numbers: Vec<u32>,
    records: Vec<Kinds>,
    orders: Vec<Order>,
    outcomes: Vec<bool>,
}

impl Met {
    fn numbers(numbers: &[u32]) -> Self {
        Met {
            numbers: numbers.to_vec(),
            records: vec![],
            orders: vec![],
            outcomes: vec![],
        }
    }
}

pub fn run() -> Report {
    let mut random = Random::new(SEED);
    let mut tally = Tally::default();
    many::<block::Encode>(&mut random, &mut tally, 60_000)?;
    many::<block::Decode>(&mut random, &mut tally, 80_000)?;
    many::<message::Encode>(&mut random, &mut tally, 20_000)?;
    many::<message::Decode>(&mut random, &mut tally, 20_000)?;
    many::<frequency::Frequency>(&mut random, &mut tally, 60_000)?;
    many::<trial::Trial>(&mut random, &mut tally, 40_000)?;
    many::<weighted::Decode>(&mut random, &mut tally, 80_000)?;
    many::<weighted_trial::Trial>(&mut random, &mut tally, 40_000)?;
    many::<range::Check>(&mut random, &mut tally, 120_000)?;
    many::<find::Find>(&mut random, &mut tally, 20_000)?;
    many::<energy::Plain>(&mut random, &mut tally, 20_000)?;
    many::<energy::Weighted>(&mut random, &mut tally, 20_000)?;
    many::<locate::Locate>(&mut random, &mut tally, 60_000)?;
    many::<queue::HandInAndSend>(&mut random, &mut tally, 10_000)?;
    tally.expect_every_refusal()?;
    tally.expect_every_kind()?;
    Ok(tally.lines())
}

fn many<C: Case>(random: &mut Random, tally: &mut Tally, cases: usize) -> Result<(), String> {
    let row = tally.open::<C>();
    for _ in 0..cases {
        let case = C::draw(random);
        let met = case.compare();
        let met = met.map_err(|difference| format!("{} {case:?}: {difference}", C::FUNCTION))?;
        row.add(case.mode(), &met);
    }
    row.expect_all()
}
