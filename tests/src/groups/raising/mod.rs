//! The set lead raised on the same tones (document 02, order 13): a text stays as it is, or turns into "unclear", and that stays.
//! Blocks worked out by hand at every set lead, and random blocks, messages and runs, each at one set lead after the other.

mod block;
mod cases;
mod message;
mod run;

use super::compare::draw::Wrong;
use super::Report;
use olivia_tests::random::Random;

const SEED: u64 = 14;

/// One case in so many is heard at every set lead.
const ALL_ONE_IN: usize = 40;

pub fn run() -> Report {
    let mut random = Random::new(SEED);
    let parts = [
        cases::run()?,
        block::plain(&mut random)?,
        block::weighted(&mut random)?,
        message::run(&mut random)?,
        run::run(&mut random)?,
    ];
    Ok(parts.join("\n  "))
}

/// One case in four may break a limit, other than that of the set lead.
fn wrong(random: &mut Random) -> Wrong {
    if random.one_in(4) {
        Wrong::draw(random)
    } else {
        Wrong::default()
    }
}

/// Set leads from 1 to the greatest, each above the one before: a few, with these and those next to them, or all.
fn chain(random: &mut Random, greatest: u32, near: &[u32]) -> Vec<u32> {
    if random.one_in(ALL_ONE_IN) {
        return (1..=greatest).collect();
    }
    let any = (0..4).map(|_| random.between(1, greatest as usize) as u32);
    let near = near.iter().flat_map(|&lead| [lead, lead + 1]);
    let mut leads: Vec<u32> = any.chain(near).collect();
    if random.one_in(4) {
        leads.extend([1, greatest]);
    }
    leads.retain(|lead| (1..=greatest).contains(lead));
    leads.sort_unstable();
    leads.dedup();
    leads
}

/// Hears at each set lead, and compares with what was heard at the one before.
fn raise<T>(
    leads: &[u32],
    hear: impl Fn(u32) -> Result<T, String>,
    mut compare: impl FnMut(u32, &T, &T) -> Result<(), String>,
) -> Result<(), String> {
    let heard: Vec<(u32, T)> = leads
        .iter()
        .map(|&lead| Ok((lead, hear(lead)?)))
        .collect::<Result<_, String>>()?;
    let next = heard.iter().skip(1);
    for ((low, before), (high, after)) in heard.iter().zip(next) {
        let met = compare(*high, before, after);
        met.map_err(|difference| format!("from {low} to {high}: {difference}"))?;
    }
    Ok(())
}
