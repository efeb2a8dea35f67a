//! Every edge of a band with the number before it and the number after it, and every tone's own frequency: in every mode and width,
//! at several centres.

use super::super::tally::Tally;
use super::super::Report;
use super::call::{Bits, Call};
use super::draw::Band;
use olivia_tests::paper::WIDTHS;

/// Besides the least one of a width.
const CENTRES: [u32; 3] = [1237, 1500, 10_000];

/// A call for each band, with 0 Hz measured.
fn bands() -> Vec<Call> {
    let mut bands = vec![];
    for mode in 1..=8 {
        for width in WIDTHS {
            for centre in [&[width.div_ceil(2)], &CENTRES[..]].concat() {
                let hertz = Bits(0);
                bands.push(Call {
                    mode,
                    width,
                    centre,
                    hertz,
                });
            }
        }
    }
    bands
}

pub fn edges() -> Report {
    let mut tally = Tally::new(["heard", "refused with 16"]);
    let bands = bands();
    for call in &bands {
        for n in 0..=1 << call.mode {
            for (hertz, owner) in around(call, n) {
                let hertz = Bits::of(hertz);
                Call { hertz, ..*call }.expect_tone(owner.ok_or(16))?;
                tally.add([owner.is_some(), owner.is_none()]);
            }
        }
    }
    tally.expect_often()?;
    let line = tally.line("edges and numbers next to one");
    Ok(format!("{line}, in {} bands", bands.len()))
}

/// The lower edge plus `n` spacings, the number before it and the number after it, each with the tone that owns it.
fn around(call: &Call, n: u32) -> Vec<(f64, Option<u32>)> {
    let edge = Band::new(call.mode, call.width, call.centre).edge(n);
    let below = n.checked_sub(1);
    let above = Some(n).filter(|&tone| tone < 1 << call.mode);
    let mut around = vec![
        (edge.next_down(), below),
        (edge, above),
        (edge.next_up(), above),
    ];
    if edge == 0.0 {
        around.push((-0.0, above));
    }
    around
}

pub fn tones() -> Report {
    let mut tones = 0;
    for call in bands() {
        for tone in 0..1 << call.mode {
            let hertz = Bits::of(call.frequency(tone));
            Call { hertz, ..call }.expect(Ok((tone, Bits::of(0.0))))?;
            tones += 1;
        }
    }
    Ok(format!(
        "{tones} tones heard at their own frequency, 0 Hz off"
    ))
}
