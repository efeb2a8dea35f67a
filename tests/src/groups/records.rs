//! Records of order 5 of document 02, worked out by hand, by the library and by the paper.
//!
//! A block of mode 1 with code c below 64 and the first 16 even tones turned has correlation 32 with the words c, c XOR 1 and
//! c XOR 32, −32 with c XOR 33, and 0 with the others. With 15 of them turned these are 34, 30, 30 and −30, and the others 2 or −2.
//! For c + 64 all have the other sign.

use super::damage::even_turned;
use super::heard::{expect_clear, expect_refused, expect_unclear, Numbers};
use super::Report;
use olivia_tests::paper::{self, MISSING};

type Case = (&'static str, fn() -> Result<(), String>);

const CASES: [Case; 14] = [
    ("all missing, mode 1", || {
        expect_unclear(1, 1, &[MISSING; 64], 0, &[[0, 0, 0, 0, 1, 0]])
    }),
    ("all missing, mode 8", || {
        expect_unclear(8, 1, &[MISSING; 64], 0, &[[0, 0, 0, 0, 1, 0]; 8])
    }),
    ("winner and runner-up negative", || {
        expect_clear(1, 4, &turned(64, 15), &[[64, 4, 0, -34, 1, -30]])
    }),
    ("winner and runner-up negative, unclear", || {
        expect_unclear(1, 5, &turned(64, 15), 0, &[[64, 4, 0, -34, 1, -30]])
    }),
    ("runner-up 0 of 0, 1 and 33, below the winner", || {
        expect_clear(1, 4, &turned(96, 15), &[[96, 4, 32, -34, 0, -30]])
    }),
    ("runner-up 30 of 30, 31 and 62, alone negative", || {
        expect_clear(1, 4, &turned(63, 15), &[[63, 4, 63, 34, 30, -30]])
    }),
    ("runner-up 30 of 30, 31 and 62, alone positive", || {
        expect_clear(1, 4, &turned(127, 15), &[[127, 4, 63, -34, 30, 30]])
    }),
    ("winner 0 of 0, 1, 32 and 33, alone negative", || {
        expect_unclear(1, 1, &turned(33, 16), 0, &[[64, 0, 0, -32, 1, 32]])
    }),
    ("winner 8 of 8, 9, 40 and 41", || {
        expect_unclear(1, 1, &turned(40, 16), 0, &[[8, 0, 8, 32, 9, -32]])
    }),
    ("winner 8 of 8, 9, 40 and 41, negative", || {
        expect_unclear(1, 1, &turned(104, 16), 0, &[[72, 0, 8, -32, 9, 32]])
    }),
    ("three characters, clear", || {
        expect_clear(3, 60, &two_bits_lost(), &TWO_BITS_LOST)
    }),
    ("three characters, the second unclear", || {
        expect_unclear(3, 61, &two_bits_lost(), 1, &TWO_BITS_LOST)
    }),
    ("refused before the tones are looked at", || {
        expect_refused(9, 1, &turned(0, 0), 1, 0)?;
        expect_refused(1, 65, &turned(0, 0), 2, 0)?;
        expect_refused(1, 1, &turned(0, 0)[1..], 7, 0)
    }),
    ("refused for a tone", || {
        let mut tones = turned(0, 0);
        tones[40] = 2;
        expect_refused(1, 1, &tones, 8, 40)
    }),
];

pub fn run() -> Report {
    for (name, case) in CASES {
        case().map_err(|difference| format!("{name}: {difference}"))?;
    }
    Ok(format!("{} cases", CASES.len()))
}

fn turned(code: u8, count: usize) -> Vec<u16> {
    even_turned(paper::block_tones(1, &[code]), count)
}

/// Codes 64, 64 and 64. The first tone sent is 7, symbol 5; tone 2 is symbol 3, which differs in the bits of characters 1 and 2.
fn two_bits_lost() -> Vec<u16> {
    let mut tones = paper::block_tones(3, &[64; 3]);
    tones[0] = 2;
    tones
}

/// One bit lost leaves 62 of 64, and 2 or −2 to every other word.
const TWO_BITS_LOST: [Numbers; 3] = [
    [64, 64, 0, -64, 1, 0],
    [64, 60, 0, -62, 1, -2],
    [64, 60, 0, -62, 1, -2],
];
