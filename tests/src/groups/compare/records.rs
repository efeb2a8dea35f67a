//! The kinds of records that were compared.

use olivia_tests::paper::{self, Character, Heard};

pub const KINDS: [&str; 6] = [
    "a negative winner",
    "a negative runner-up",
    "both negative",
    "a tie for the winner",
    "a tie for the runner-up",
    "such a tie above 0",
];

/// Which kinds a record is of.
pub type Kinds = [bool; KINDS.len()];

/// The kinds of each record of a block with these tones and weights.
pub fn kinds(said: &Heard, tones: &[u16], weights: &[u8]) -> Vec<Kinds> {
    if said.characters.is_empty() {
        return vec![];
    }
    let correlations = paper::correlations(said.characters.len(), tones, weights);
    let records = said.characters.iter().zip(correlations);
    records
        .map(|(character, correlations)| kinds_of(character, &correlations))
        .collect()
}

fn kinds_of(character: &Character, correlations: &[i32]) -> Kinds {
    let winner_negative = character.correlation < 0;
    let next_negative = character.next_correlation < 0;
    let rival = character.next_correlation.abs();
    let other_rivals = (0..64)
        .filter(|&c| c != character.word && c != character.next)
        .filter(|&c| correlations[c].abs() == rival)
        .count();
    let next_tied = other_rivals > 0;
    [
        winner_negative,
        next_negative,
        winner_negative && next_negative,
        character.lead == 0,
        next_tied,
        next_tied && rival > 0,
    ]
}
