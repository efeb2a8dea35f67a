//! Random measurements in random bands: of any 64 bits, and in the band.

use super::super::compare::frequency::centre;
use super::super::tally::Tally;
use super::super::Report;
use super::call::{Bits, Call, Told};
use super::draw::{self, Band};
use olivia_tests::paper::WIDTHS;
use olivia_tests::random::Random;
use std::iter::repeat_n;

/// Measurements of each mode.
const REPEATS: usize = 50_000;

/// A call with a band of this mode and what `draw` makes of it, and what is told.
fn measure(
    random: &mut Random,
    mode: u32,
    draw: fn(&mut Random, &Band) -> f64,
) -> Result<(Call, Told), String> {
    let width = random.pick(&WIDTHS);
    let centre = centre(random, width, false);
    let hertz = draw(random, &Band::new(mode, width, centre));
    let call = Call {
        mode,
        width,
        centre,
        hertz: Bits::of(hertz),
    };
    let met = call.run();
    let told = met.map_err(|difference| format!("{call:?}: {difference}"))?;
    Ok((call, told))
}

pub fn any_bits(random: &mut Random) -> Report {
    let mut tally = Tally::new(["heard", "refused with 15", "refused with 16"]);
    let mut by_mode = vec![];
    for mode in 1..=8 {
        let mut heard = 0;
        for _ in 0..REPEATS {
            let (_, told) = measure(random, mode, |random, _| draw::any(random))?;
            heard += usize::from(told.is_ok());
            tally.add([told.is_ok(), told == Err(15), told == Err(16)]);
        }
        by_mode.push(format!("{mode}: {heard}"));
    }
    tally.expect_often()?;
    let line = tally.line("random bit patterns");
    Ok(format!("{line}, heard by mode, {}", by_mode.join(", ")))
}

pub fn in_band(random: &mut Random) -> Report {
    let mut tally = Tally::new([
        "below the tone",
        "on the tone",
        "above the tone",
        "distance rounded",
    ]);
    for mode in (1..=8).flat_map(|mode| repeat_n(mode, REPEATS)) {
        let (call, told) = measure(random, mode, draw::inside)?;
        let (tone, off) = told.map_err(|number| format!("{call:?}: refused with {number}"))?;
        let off = off.number();
        tally.add([off < 0.0, off == 0.0, off > 0.0, call.is_rounded(tone, off)]);
    }
    tally.expect_often()?;
    Ok(tally.line("random measurements in the band"))
}
