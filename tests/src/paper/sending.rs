//! Sending a block.

use super::refusals::{checked_mode, require, require_each, Refusal};
use super::SYMBOLS;

/// "The key is E257E6D0291574EC, hexadecimal, 64 bits, bit 0 least."
const KEY: u64 = 0xE257_E6D0_2915_74EC;

/// "It is minus if the count of ones in c AND NOT t, taken over six bits, is odd; otherwise plus."
pub fn is_minus(c: usize, t: usize) -> bool {
    (c & !t & 0b11_1111).count_ones() % 2 == 1
}

/// "Code v below 64 uses word v. Code v from 64 up uses word v − 64 with every sign turned. A minus is bit 1."
pub fn code_bit(v: u8, t: usize) -> u16 {
    let v = usize::from(v);
    let minus = if v < 64 {
        is_minus(v, t)
    } else {
        !is_minus(v - 64, t)
    };
    u16::from(minus)
}

/// "This is the order of the reference butterfly: first minus second above, first plus second below." Document 000, 3.5, begins with 1
/// at the place of the word, or -1 for a code from 64 up, and 0 elsewhere, and goes from distance 32 to distance 1.
pub fn reference_word(v: u8) -> [i32; SYMBOLS] {
    let mut word = [0; SYMBOLS];
    word[usize::from(v % 64)] = if v < 64 { 1 } else { -1 };
    for distance in [32, 16, 8, 4, 2, 1] {
        for pairs in (0..SYMBOLS).step_by(2 * distance) {
            for place in pairs..pairs + distance {
                let (first, second) = (word[place], word[place + distance]);
                word[place] = first - second;
                word[place + distance] = first + second;
            }
        }
    }
    word
}

/// "The bit of character q at t is XORed with key bit (13 × q + t) mod 64."
pub fn key_bit(q: usize, t: usize) -> u16 {
    (KEY >> ((13 * q + t) % 64)) as u16 & 1
}

/// "The bit of character q at t becomes bit (q + t) mod b of symbol t; bit 0 weighs 1."
pub fn place_in_symbol(b: usize, q: usize, t: usize) -> usize {
    (q + t) % b
}

/// "The tone is symbol XOR (symbol shifted right by one)."
pub fn tone_of(symbol: u16) -> u16 {
    symbol ^ (symbol >> 1)
}

/// The 64 symbols of a block with these b codes.
pub fn block_symbols(b: usize, codes: &[u8]) -> Vec<u16> {
    let symbol_at = |t: usize| -> u16 {
        (0..b)
            .map(|q| (code_bit(codes[q], t) ^ key_bit(q, t)) << place_in_symbol(b, q, t))
            .sum()
    };
    (0..SYMBOLS).map(symbol_at).collect()
}

/// The 64 tones of a block with these b codes.
pub fn block_tones(b: usize, codes: &[u8]) -> Vec<u16> {
    block_symbols(b, codes).into_iter().map(tone_of).collect()
}

/// "Checks when sending: 1, 5, 9, 6."
pub fn encode_block(mode: u32, codes: &[u8], room: usize) -> Result<Vec<u16>, Refusal> {
    let b = checked_mode(mode)?;
    require(codes.len() == b, 5)?;
    require(room >= SYMBOLS, 9)?;
    require_each(codes, |code| code >= 128, 6)?;
    Ok(block_tones(b, codes))
}
