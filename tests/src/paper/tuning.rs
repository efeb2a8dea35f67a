//! How far off tune the far station is: order 4 of document 02.

use super::exact::{is_finite, is_negative, Magnitude};
use super::frequencies::Band;
use super::refusals::{require, Refusal};

/// "The tone it belongs to and the distance from that tone's centre."
#[derive(Clone, Copy, Debug, PartialEq)]
pub struct Located {
    pub tone: u32,
    pub hertz_off: f64,
}

/// "Tone N owns the stretch from the lower edge plus N spacings up to, but without, the next such edge." "Checks on mode, width and
/// centre come first." "15, the measurement is infinite or not a number, place 0; 16, it lies below the lower edge or at or above
/// the upper, place 0; in this order, after 4." No band reaches below 0.
pub fn locate(mode: u32, width: u32, centre: u32, hertz: f64) -> Result<Located, Refusal> {
    let band = Band::checked(mode, width, centre)?;
    require(is_finite(hertz), 15)?;
    let measured = Magnitude::of(hertz);
    let edge = |n: u32| Magnitude::of_512ths(band.lower_edge + band.spacing * n);
    let is_below = is_negative(hertz) || measured < edge(0);
    require(!is_below && measured < edge(band.tones), 16)?;
    let owns = |&tone: &u32| edge(tone) <= measured && measured < edge(tone + 1);
    let owners: Vec<u32> = (0..band.tones).filter(owns).collect();
    let [tone] = owners[..] else {
        panic!("{hertz} has these owners: {owners:?}");
    };
    Ok(Located {
        tone,
        hertz_off: distance(measured, Magnitude::of_512ths(band.frequency(tone))),
    })
}

/// "The distance is one f64 subtraction, the measurement minus that tone's frequency": the difference as it is, rounded once.
fn distance(measured: Magnitude, frequency: Magnitude) -> f64 {
    if measured < frequency {
        -frequency.minus(&measured).rounded()
    } else {
        measured.minus(&frequency).rounded()
    }
}
