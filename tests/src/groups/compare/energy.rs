//! Blocks checked without knowing their text, plain and with weights.

use super::super::energies::call::Call;
use super::super::weighing::Weighed;
use super::block::tones_to_hear;
use super::draw::{self, Wrong};
use super::weighted::{heard, least_lead};
use super::{Met, Order};
use olivia_tests::paper::{tone_count, MISSING, SYMBOLS};
use olivia_tests::random::Random;

#[derive(Debug)]
pub struct Plain(Call);

impl super::Case for Plain {
    const FUNCTION: &'static str = "energy";
    const REFUSALS: &'static [u32] = &[1, 7, 8];
    const ORDERS: &'static [Order] = &[(1, 7), (1, 8), (7, 8)];

    fn draw(random: &mut Random) -> Self {
        let wrong = Wrong::draw(random);
        let b = random.between(1, 8);
        let text: Vec<u8> = (0..b).map(|_| random.code()).collect();
        let least_lead = draw::least_lead(random, false);
        Plain(Call {
            mode: draw::mode(random, b, wrong.mode),
            tones: tones_to_hear(random, b, &text, least_lead, &wrong),
            weights: None,
        })
    }

    fn mode(&self) -> u32 {
        self.0.mode
    }

    fn compare(&self) -> Result<Met, String> {
        let given = self.0.run()?;
        Ok(Met {
            orders: orders(&self.0, given.number),
            ..Met::numbers(&[given.number])
        })
    }
}

#[derive(Debug)]
pub struct Weighted(Call);

impl super::Case for Weighted {
    const FUNCTION: &'static str = "weighted_energy";
    const REFUSALS: &'static [u32] = &[1, 7, 8, 14];
    const ORDERS: &'static [Order] = &[(1, 7), (1, 8), (1, 14), (7, 8), (7, 14), (8, 14)];
    const OUTCOMES: &'static [&'static str] = &[
        "7 for the tones alone",
        "7 for the weights alone",
        "7 for both",
    ];

    fn draw(random: &mut Random) -> Self {
        let (wrong, wrong_weights) = (Wrong::draw(random), Wrong::draw(random));
        let b = random.between(1, 8);
        let text: Vec<u8> = (0..b).map(|_| random.code()).collect();
        let least_lead = least_lead(random, false);
        let Weighed { tones, weights } =
            heard(random, b, &text, least_lead, &wrong, &wrong_weights);
        Weighted(Call {
            mode: draw::mode(random, b, wrong.mode),
            tones,
            weights: Some(weights),
        })
    }

    fn mode(&self) -> u32 {
        self.0.mode
    }

    fn compare(&self) -> Result<Met, String> {
        let given = self.0.run()?;
        let is_count = given.number == 7;
        let [tones, weights] = wrong_counts(&self.0);
        Ok(Met {
            orders: orders(&self.0, given.number),
            outcomes: vec![
                is_count && tones && !weights,
                is_count && weights && !tones,
                is_count && tones && weights,
            ],
            ..Met::numbers(&[given.number])
        })
    }
}

/// The refusal with each later one whose limit is broken too.
fn orders(call: &Call, number: u32) -> Vec<Order> {
    let later = broken(call).into_iter().filter(|&later| later != number);
    match number {
        0 => vec![],
        _ => later.map(|later| (number, later)).collect(),
    }
}

/// The limits of counts, tones and weights that are broken, each judged alone; without a mode a tone is bad if it is in every mode.
fn broken(call: &Call) -> Vec<u32> {
    let b = match call.mode {
        mode @ 1..=8 => mode as usize,
        _ => 8,
    };
    let is_bad = |&tone: &u16| usize::from(tone) >= tone_count(b) && tone != MISSING;
    let weights = call.weights.as_deref().unwrap_or(&[]);
    let limits = [
        (7, wrong_counts(call).contains(&true)),
        (8, call.tones.iter().any(is_bad)),
        (14, weights.iter().any(|&weight| weight > 15)),
    ];
    let broken = limits.into_iter().filter(|limit| limit.1);
    broken.map(|limit| limit.0).collect()
}

/// Whether the tones, and the weights if there are any to be, are of another count than 64.
fn wrong_counts(call: &Call) -> [bool; 2] {
    let weights = call.weights.as_ref();
    [
        call.tones.len() != SYMBOLS,
        weights.is_some_and(|weights| weights.len() != SYMBOLS),
    ]
}
