//! The range check by itself (document 02, order 2): calls worked out by hand, and blocks and messages, which are refused with 8
//! just if the check refuses their tones, and at the same place.

mod block;
mod cases;
mod message;

use super::{lent::Lent, Report};
use olivia_tests::library::{self, Answer, Looked};
use olivia_tests::random::Random;

const SEED: u64 = 8;

pub fn run() -> Report {
    let mut random = Random::new(SEED);
    let parts = [
        cases::run()?,
        block::run(&mut random)?,
        message::run(&mut random)?,
    ];
    Ok(parts.join("\n  "))
}

/// What the library's check tells of these tones, which it leaves as they were.
fn check(mode: u32, tones: &[u16]) -> Result<Looked, String> {
    let mut lent = Lent::input(tones);
    let looked = library::check_tones(mode, lent.part());
    lent.expect("tones handed in", tones)?;
    Ok(looked)
}

/// What the check has to tell of tones that are bad wherever they differ from right ones.
fn told(right: &[u16], tones: &[u16]) -> Looked {
    match (0..tones.len()).find(|&place| tones[place] != right[place]) {
        Some(place) => Looked {
            number: 8,
            place: place as u64,
            looked: place as u64 + 1,
        },
        None => Looked {
            looked: tones.len() as u64,
            ..Looked::default()
        },
    }
}

/// The refusal 8 of an entry that hears the tones of which the check tells this.
fn refused(looked: Looked) -> Option<Answer> {
    (looked.number == 8).then(|| Answer {
        number: 8,
        place: u32::try_from(looked.place).unwrap_or(u32::MAX),
        ..Answer::default()
    })
}
