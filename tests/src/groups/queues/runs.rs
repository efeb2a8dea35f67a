//! Long random runs of calls, each from a new sender on: after each call the library tells and leaves what the paper says, and the
//! order's laws hold.

use super::super::tally::Tally;
use super::super::Report;
use super::draw::{Temper, TEMPERS};
use super::laws::Laws;
use super::senders::Senders;
use olivia_tests::paper::{DEPOTS, PLACES};
use olivia_tests::random::Random;

const RUNS: usize = 1000;

/// Calls of each run.
const CALLS: usize = 1000;

/// What a call came to, and what it met.
const KINDS: [&str; 13] = [
    "taken",
    "refused with 1",
    "refused with 5",
    "refused with 6",
    "refused with 17",
    "refused with 18",
    "refused with 19",
    "taken at a sum of 150",
    "sent",
    "none waiting",
    "refused with 9",
    "sent with every place full",
    "served at the thirtieth send",
];

type Kinds = [bool; KINDS.len()];

pub fn run(random: &mut Random) -> Report {
    let mut tally = Tally::new(KINDS);
    let (mut taken, mut sent, mut waiting) = (0, 0, 0);
    for number in 0..RUNS {
        let mut run = Run::new(random, TEMPERS[number % TEMPERS.len()])?;
        for call in 0..CALLS {
            let met = run.call(random, call);
            tally.add(met.map_err(|difference| {
                format!("run {number}, {:?}, call {call}: {difference}", run.temper)
            })?);
        }
        taken += run.laws.taken();
        sent += run.laws.sent();
        waiting += run.senders.count();
    }
    tally.expect_often()?;
    let line = tally.line(&format!("calls in {RUNS} runs"));
    Ok(format!(
        "{line}\n  of the {taken} blocks taken {sent} are sent and {waiting} wait"
    ))
}

struct Run {
    temper: Temper,
    favourite: usize,
    senders: Senders,
    laws: Laws,
}

impl Run {
    fn new(random: &mut Random, temper: Temper) -> Result<Self, String> {
        Ok(Run {
            temper,
            favourite: random.below(DEPOTS),
            senders: Senders::new()?,
            laws: Laws::default(),
        })
    }

    fn call(&mut self, random: &mut Random, call: usize) -> Result<Kinds, String> {
        let kinds = if self.temper.hands_in(random, call) {
            self.hand_in(random, call)?
        } else {
            self.send(random)?
        };
        self.laws.expect(&self.senders)?;
        Ok(kinds)
    }

    fn hand_in(&mut self, random: &mut Random, call: usize) -> Result<Kinds, String> {
        let handed = self.temper.hand_in(random, call, self.favourite);
        let is_sum_150 = self.senders.sum() == PLACES;
        let told = self.senders.hand_in(&handed)?;
        self.laws.hand_in(handed.depot, told)?;
        let refused = |number: u32| told.is_err_and(|refusal| refusal.0 == number);
        let mut kinds = [false; KINDS.len()];
        kinds[0] = told.is_ok();
        kinds[1..7].copy_from_slice(&[1, 5, 6, 17, 18, 19].map(refused));
        kinds[7] = told.is_ok() && is_sum_150;
        Ok(kinds)
    }

    fn send(&mut self, random: &mut Random) -> Result<Kinds, String> {
        let room = self.temper.room(random);
        let is_full = self.senders.count() == PLACES;
        let told = self.senders.send(room)?;
        self.laws.send(told)?;
        let is_sent = matches!(told, Ok(Some(_)));
        let mut kinds = [false; KINDS.len()];
        kinds[8..].copy_from_slice(&[
            is_sent,
            told == Ok(None),
            told.is_err(),
            is_sent && is_full,
            is_sent && self.laws.last_wait() == 30,
        ]);
        Ok(kinds)
    }
}
