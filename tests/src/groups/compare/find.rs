//! Blocks found in runs that are short, so that many are tried, and that break each limit with each other. Longer ones are in the
//! group `finding`.

use super::super::lent::Lent;
use super::super::{expect_equal, found_of, written};
use super::draw::{self, Wrong};
use super::range::spoil;
use super::{records, Met, Order};
use olivia_tests::library;
use olivia_tests::paper::{self, LONGEST_RUN, MISSING, SYMBOLS};
use olivia_tests::random::Random;

/// Tones before the block, at most.
const BEFORE: usize = 3;

#[derive(Debug)]
pub struct Find {
    mode: u32,
    least_lead: u32,
    run: Vec<u16>,
    room: usize,
}

impl super::Case for Find {
    const FUNCTION: &'static str = "find_block";
    const REFUSALS: &'static [u32] = &[1, 2, 7, 8, 9, 13];
    const ORDERS: &'static [Order] = &[
        (1, 2),
        (1, 7),
        (2, 7),
        (2, 9),
        (2, 8),
        (7, 9),
        (7, 8),
        (9, 8),
        (9, 13),
        (8, 13),
    ];

    fn draw(random: &mut Random) -> Self {
        let wrong = Wrong::draw(random);
        let b = random.between(1, 8);
        let text: Vec<u8> = (0..b).map(|_| random.code()).collect();
        let least_lead = draw::least_lead(random, wrong.lead);
        Find {
            mode: draw::mode(random, b, wrong.mode),
            least_lead,
            run: run(random, b, &text, least_lead, &wrong),
            room: draw::room(random, b, wrong.room),
        }
    }

    fn mode(&self) -> u32 {
        self.mode
    }

    fn compare(&self) -> Result<Met, String> {
        let mut run = Lent::input(&self.run);
        let mut codes = Lent::output(self.room);
        let given = library::find_block(self.mode, self.least_lead, run.part(), codes.part());
        let said = paper::find_block(self.mode, self.least_lead, &self.run, self.room);
        expect_equal("answer", found_of(&said), given)?;
        codes.expect("codes", written(&said.heard.text))?;
        run.expect("run handed in", &self.run)?;
        let tones = self.run.get(said.start..).unwrap_or(&[]);
        Ok(Met {
            records: records::kinds(&said.heard, tones, &paper::PLAIN),
            orders: self.orders(given.answer.number),
            ..Met::numbers(&[given.answer.number])
        })
    }
}

impl Find {
    /// The refusal with each other whose limit is broken too.
    fn orders(&self, number: u32) -> Vec<Order> {
        let later = self.broken().into_iter().filter(|&later| later != number);
        match number {
            0 | 13 => vec![],
            _ => later.map(|later| (number, later)).collect(),
        }
    }

    /// The limits that are broken, each judged alone: room and tones if there is a mode, and clearness with bad tones as missing.
    fn broken(&self) -> Vec<u32> {
        let b = self.mode as usize;
        let is_mode = (1..=8).contains(&b);
        let is_wrong = |tone: u16| usize::from(tone) >= paper::tone_count(b) && tone != MISSING;
        let kept = |&tone: &u16| if is_wrong(tone) { MISSING } else { tone };
        let answer = || {
            let right: Vec<u16> = self.run.iter().map(kept).collect();
            paper::find_block(self.mode, self.least_lead, &right, SYMBOLS)
                .heard
                .text
        };
        let limits = [
            (2, !(1..=64).contains(&self.least_lead)),
            (7, !(SYMBOLS..=LONGEST_RUN).contains(&self.run.len())),
            (9, is_mode && self.room < b),
            (8, is_mode && self.run.iter().any(|&tone| is_wrong(tone))),
            (
                13,
                is_mode && answer().is_err_and(|refusal| refusal.number == 13),
            ),
        ];
        let broken = limits.into_iter().filter(|limit| limit.1);
        broken.map(|limit| limit.0).collect()
    }
}

/// Up to three tones of noise, and a block; too short or too long, or with bad tones, as asked.
fn run(random: &mut Random, b: usize, text: &[u8], least_lead: u32, wrong: &Wrong) -> Vec<u16> {
    let before = random.between(0, BEFORE);
    let mut run = draw::noise(random, b, before);
    run.extend(draw::heard(random, b, text, least_lead));
    if wrong.count {
        let length = random.pick(&[0, SYMBOLS - 1, SYMBOLS - 1, LONGEST_RUN + 1]);
        run.resize(length, MISSING);
    }
    if wrong.content {
        spoil(random, b, &mut run);
    }
    run
}
