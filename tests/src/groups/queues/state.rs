//! What the bytes of a sender's state say, by include/olivia.h.

use olivia_tests::library::Sender;
use olivia_tests::paper::{DEPOTS, PLACES};

/// The bytes of a place: a depot, a mode and up to 8 codes.
pub const PLACE: usize = 10;

/// Where the counts of waiting blocks stand, one for each depot, and then the count of filled places and the turn.
pub const COUNTS: usize = PLACES * PLACE;
pub const FILLED: usize = COUNTS + DEPOTS;
pub const TURN: usize = FILLED + 1;

/// How many blocks each depot has waiting.
pub fn counts(state: &Sender) -> &[u8] {
    &state.bytes[COUNTS..FILLED]
}

/// How many places are filled.
pub fn filled(state: &Sender) -> usize {
    state.bytes[FILLED].into()
}

/// The depot that the next send looks at first.
pub fn turn(state: &Sender) -> usize {
    state.bytes[TURN].into()
}

/// The blocks in the filled places: depot, mode, and as many codes as the mode says.
pub fn blocks(state: &Sender) -> Result<Vec<&[u8]>, String> {
    let places = state.bytes.get(..filled(state) * PLACE);
    let places = places.filter(|places| places.len() <= COUNTS);
    let places = places.ok_or_else(|| format!("{} places filled", filled(state)))?;
    let blocks = places.chunks(PLACE).map(|place| {
        let block = place.get(..2 + usize::from(place[1]));
        block.ok_or_else(|| format!("a place with {place:?}"))
    });
    blocks.collect()
}

/// A block as it stands in its place.
pub fn block(depot: u32, mode: u32, codes: &[u8]) -> Vec<u8> {
    [&[depot as u8, mode as u8], codes].concat()
}
