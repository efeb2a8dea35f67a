//! Document 01 ("Olivia text link: from characters to tones and back"), with orders 1 to 5, 7, 8 and 13 of document 02,
//! written down a second time, to hold the library and the listing program against.
//!
//! Each function quotes the rule that it is. Nothing here is fast or shared with the library: a correlation is a sum over 64
//! places, and the symbol of a tone is searched for. A function hands back what an entry has to write; `room` is the length of the
//! output that the entry would be lent.

mod demand;
mod energies;
mod exact;
mod finding;
mod frequencies;
mod hearing;
mod listing;
mod messages;
mod queues;
mod range;
mod refusals;
mod sending;
mod sentences;
mod tuning;
mod weights;

pub use demand::{
    damage, keeps_text, shuts_out_others, trial, weighted_trial, Trial, WeightedTrial,
};
pub use energies::{energy, weighted_energy, Energies};
pub use finding::{find_block, Finding, LONGEST_RUN};
pub use frequencies::{frequency, WIDTHS};
pub use hearing::{correlations, decode_block, symbol_of, Character, Heard, PLAIN};
pub use listing::listed;
pub use messages::{decode_message, encode_message};
pub use queues::{Block, Sender, Sent, DEPOTS, KEPT, MOST_WAITING, PLACES};
pub use range::{check_tones, Looked};
pub use refusals::Refusal;
pub use sending::{
    block_symbols, block_tones, code_bit, encode_block, key_bit, place_in_symbol, reference_word,
    tone_of,
};
pub use sentences::{read_sentence, rows, shared, write_sentence, Row, GREATEST_PLACE};
pub use tuning::{locate, Located};
pub use weights::decode_weighted;

/// "A block is 64 symbols."
pub const SYMBOLS: usize = 64;

/// "Tones are 16-bit numbers; 65535 marks a missing one."
pub const MISSING: u16 = 65535;

/// "Newer boards send a weight from 0 to 15 with each tone" (document 02, order 3).
pub const GREATEST_WEIGHT: u8 = 15;

/// "With weights, m runs from 1 to 960" (document 02, order 3); in a sentence leads go "up to 960" (order 8).
pub const GREATEST_LEAD: u32 = 960;

/// "A message is 0 to 1,024 codes from 1 to 127."
pub const LONGEST_MESSAGE: usize = 1024;

/// "It has 2^b tones, numbered from 0."
pub fn tone_count(b: usize) -> usize {
    1 << b
}

/// The blocks of a message of `codes` codes: "The sender fills the last block with code 0."
pub fn block_count(b: usize, codes: usize) -> usize {
    codes.div_ceil(b)
}
