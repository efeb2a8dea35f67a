//! The check of a block without knowing its text: order 13 of document 02.

use super::hearing::{correlations, PLAIN};
use super::refusals::{check_heard, check_weights, checked_mode, require, Refusal};
use super::{MISSING, SYMBOLS};

/// For each of the b characters what the squares of its correlations add up to, and the total that this has to be.
#[derive(Clone, Debug, PartialEq, Eq)]
pub struct Energies {
    pub sums: Vec<u32>,
    pub total: u32,
}

/// "For every block and character, the squares of the 64 correlations."
fn sums(b: usize, tones: &[u16], weights: &[u8]) -> Vec<u32> {
    let sum_of_squares = |correlations: &Vec<i32>| -> u32 {
        let squares = correlations
            .iter()
            .map(|correlation| correlation.unsigned_abs().pow(2));
        squares.sum()
    };
    let characters = correlations(b, tones, weights);
    characters.iter().map(sum_of_squares).collect()
}

/// "64 times the sum of the squared weights, each 1 in plain hearing, missing tones counting 0."
fn total(tones: &[u16], weights: &[u8]) -> u32 {
    let square_at = |t: usize| match tones[t] {
        MISSING => 0,
        _ => u32::from(weights[t]).pow(2),
    };
    64 * (0..SYMBOLS).map(square_at).sum::<u32>()
}

fn energies(b: usize, tones: &[u16], weights: &[u8]) -> Energies {
    Energies {
        sums: sums(b, tones, weights),
        total: total(tones, weights),
    }
}

/// Where the paper is silent: the checks of hearing, without those of a set lead and of an output, since there are none: 1, 7, 8.
pub fn energy(mode: u32, tones: &[u16]) -> Result<Energies, Refusal> {
    let b = checked_mode(mode)?;
    require(tones.len() == SYMBOLS, 7)?;
    check_heard(b, tones)?;
    Ok(energies(b, tones, &PLAIN))
}

/// The same with weights: 1, 7, 8, 14.
pub fn weighted_energy(mode: u32, tones: &[u16], weights: &[u8]) -> Result<Energies, Refusal> {
    let b = checked_mode(mode)?;
    require(tones.len() == SYMBOLS && weights.len() == SYMBOLS, 7)?;
    check_heard(b, tones)?;
    check_weights(weights)?;
    Ok(energies(b, tones, weights))
}
