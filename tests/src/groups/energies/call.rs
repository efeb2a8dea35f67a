//! A call of energy or weighted_energy, and what it has to give.

use super::super::expect_equal;
use super::super::lent::Lent;
use olivia_tests::library::{self, Energies};
use olivia_tests::paper::{self, Refusal, SYMBOLS};

/// The codes of a block, the mode's first ones.
const TEXT: [u8; 8] = [0, 127, 64, 63, 1, 80, 42, 101];

/// What is handed in: with weights to weighted_energy, without them to energy.
#[derive(Clone, Debug)]
pub struct Call {
    pub mode: u32,
    pub tones: Vec<u16>,
    pub weights: Option<Vec<u8>>,
}

impl Call {
    /// A clean block without weights.
    pub fn clean(b: usize) -> Self {
        Call {
            mode: b as u32,
            tones: paper::block_tones(b, &TEXT[..b]),
            weights: None,
        }
    }

    /// A clean block with this weight throughout.
    pub fn weighted(b: usize, weight: u8) -> Self {
        Call::clean(b).with_weights(vec![weight; SYMBOLS])
    }

    /// A clean block without weights, and with weight 15 throughout.
    pub fn both(b: usize) -> [Self; 2] {
        [Call::clean(b), Call::weighted(b, 15)]
    }

    pub fn with_mode(&self, mode: u32) -> Self {
        let call = self.clone();
        Call { mode, ..call }
    }

    pub fn with_tones(&self, tones: Vec<u16>) -> Self {
        let call = self.clone();
        Call { tones, ..call }
    }

    pub fn with_weights(&self, weights: Vec<u8>) -> Self {
        let weights = Some(weights);
        let call = self.clone();
        Call { weights, ..call }
    }

    pub fn with_tone(&self, place: usize, tone: u16) -> Self {
        let mut call = self.clone();
        call.tones[place] = tone;
        call
    }

    /// With another weight at this place, if there are weights.
    pub fn with_weight(&self, place: usize, weight: u8) -> Self {
        let mut call = self.clone();
        if let Some(weights) = &mut call.weights {
            weights[place] = weight;
        }
        call
    }

    /// What the library tells, which is what the paper says. Tones and weights are left as they were.
    pub fn run(&self) -> Result<Energies, String> {
        let handed_in = self.weights.as_deref().unwrap_or(&[]);
        let mut tones = Lent::input(&self.tones);
        let mut weights = Lent::input(handed_in);
        let (said, given) = match &self.weights {
            None => (
                paper::energy(self.mode, &self.tones),
                library::energy(self.mode, tones.part()),
            ),
            Some(_) => (
                paper::weighted_energy(self.mode, &self.tones, handed_in),
                library::weighted_energy(self.mode, tones.part(), weights.part()),
            ),
        };
        expect_equal("energies", energies_of(&said), given)?;
        tones.expect("tones handed in", &self.tones)?;
        weights.expect("weights handed in", handed_in)?;
        Ok(given)
    }

    /// Every character of the mode has this energy.
    pub fn expect_total(&self, total: u32) -> Result<(), String> {
        let wanted = Energies {
            total,
            sums: eight(&vec![total; self.mode as usize]),
            ..Energies::default()
        };
        self.expect(wanted)
    }

    pub fn expect_refused(&self, number: u32, place: usize) -> Result<(), String> {
        self.expect(refused(number, place))
    }

    fn expect(&self, wanted: Energies) -> Result<(), String> {
        let met = self
            .run()
            .and_then(|given| expect_equal("energies by hand", wanted, given));
        met.map_err(|difference| format!("{self:?}: {difference}"))
    }
}

/// What the library tells that stands for what the paper says.
fn energies_of(said: &Result<paper::Energies, Refusal>) -> Energies {
    match said {
        Ok(energies) => Energies {
            total: energies.total,
            sums: eight(&energies.sums),
            ..Energies::default()
        },
        Err(refusal) => refused(refusal.number, refusal.place),
    }
}

fn refused(number: u32, place: usize) -> Energies {
    Energies {
        number,
        place: place as u32,
        ..Energies::default()
    }
}

/// All eight sums, those past the mode's 0.
fn eight(sums: &[u32]) -> [u32; 8] {
    let mut all = [0; 8];
    all[..sums.len()].copy_from_slice(sums);
    all
}
