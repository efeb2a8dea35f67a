//! The words of all codes: the reference butterfly, the rule of document 01 and the library's tones of mode 1 have one sign at each place.

use super::{expect_equal, Report};
use olivia_tests::library::{self, Answer};
use olivia_tests::paper::{self, SYMBOLS};

pub fn run() -> Report {
    for code in 0..128 {
        signs(code).map_err(|difference| format!("code {code}: {difference}"))?;
    }
    Ok("128 codes".into())
}

fn signs(code: u8) -> Result<(), String> {
    let wanted = paper::reference_word(code).map(|sign| u16::from(sign < 0));
    expect_equal(
        "by the paper",
        &wanted[..],
        &bits(|t| paper::code_bit(code, t)),
    )?;
    let mut tones = [0; SYMBOLS];
    let accepted = Answer {
        count: 64,
        ..Answer::default()
    };
    let given = library::encode_block(1, &[code], &mut tones);
    expect_equal("encode", accepted, given)?;
    let unscrambled = bits(|t| tones[t] ^ paper::key_bit(0, t));
    expect_equal("by the library", &wanted[..], &unscrambled)
}

fn bits(bit: impl Fn(usize) -> u16) -> Vec<u16> {
    (0..SYMBOLS).map(bit).collect()
}
