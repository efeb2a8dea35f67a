//! Tone frequencies.

use super::refusals::{checked_mode, require, Refusal};
use super::tone_count;

/// "The width B is 125, 250, 500, 1000 or 2000 Hz."
pub const WIDTHS: [u32; 5] = [125, 250, 500, 1000, 2000];

/// A band in whole numbers of 1/512 Hz, of which the spacing is an even one in every mode.
pub struct Band {
    pub lower_edge: u32,
    pub spacing: u32,
    pub tones: u32,
}

impl Band {
    /// The lower edge centre − B / 2 and the spacing B / 2^b, after the checks of the installer's settings: 1, 3, 4.
    pub fn checked(mode: u32, width: u32, centre: u32) -> Result<Self, Refusal> {
        let b = checked_mode(mode)?;
        require(WIDTHS.contains(&width), 3)?;
        require(centre <= 10_000 && 2 * centre >= width, 4)?;
        let tones = tone_count(b) as u32;
        Ok(Band {
            lower_edge: 512 * centre - 256 * width,
            spacing: 512 / tones * width,
            tones,
        })
    }

    /// "Tone N lies at centre − B / 2 + spacing / 2 + spacing × N."
    pub fn frequency(&self, tone: u32) -> u32 {
        self.lower_edge + self.spacing / 2 + self.spacing * tone
    }
}

/// "For frequencies: 1, 3, 4, 8."
pub fn frequency(mode: u32, width: u32, centre: u32, tone: u16) -> Result<f64, Refusal> {
    let band = Band::checked(mode, width, centre)?;
    require(u32::from(tone) < band.tones, 8)?;
    Ok(f64::from(band.frequency(tone.into())) / 512.0)
}
