//! Random measurements of a band.

use olivia_tests::random::Random;

/// The ends of a band in Hz, and how many tones it has.
pub struct Band {
    lower: f64,
    width: f64,
    tones: u32,
}

impl Band {
    /// Of any width and centre, within the limits or not.
    pub fn new(mode: u32, width: u32, centre: u32) -> Self {
        Band {
            lower: f64::from(centre) - f64::from(width) / 2.0,
            width: f64::from(width),
            tones: 1 << mode,
        }
    }

    /// The lower edge plus so many spacings.
    pub fn edge(&self, n: u32) -> f64 {
        self.lower + self.spacing() * f64::from(n)
    }

    fn spacing(&self) -> f64 {
        self.width / f64::from(self.tones)
    }

    fn upper(&self) -> f64 {
        self.edge(self.tones)
    }

    pub fn is_below(&self, hertz: f64) -> bool {
        hertz < self.lower
    }

    pub fn is_above(&self, hertz: f64) -> bool {
        hertz >= self.upper()
    }
}

/// Any 64 bits.
pub fn any(random: &mut Random) -> f64 {
    f64::from_bits(random.number())
}

/// A measurement in the band: any by its place, or, if the band is above 0, by its bits; on a tone or at an edge, or next to one.
pub fn inside(random: &mut Random, band: &Band) -> f64 {
    match random.below(4) {
        0 if band.lower >= 0.0 => {
            let (low, high) = (band.lower.to_bits(), band.upper().to_bits());
            f64::from_bits(random.between(low as usize, high as usize - 1) as u64)
        }
        0 | 1 => {
            let parts = random.number() >> 32;
            band.lower + band.width * (parts as f64 / (1u64 << 32) as f64)
        }
        2 => near_tone(random, band),
        _ => near_edge(random, band),
    }
}

/// A tone's frequency, or next to it.
fn near_tone(random: &mut Random, band: &Band) -> f64 {
    let tone = random.below(band.tones as usize) as u32;
    let hertz = band.edge(tone) + band.spacing() / 2.0;
    random.pick(&[hertz, hertz, hertz.next_down(), hertz.next_up()])
}

/// The lower edge of a tone's stretch or next to it, or next to the upper edge.
fn near_edge(random: &mut Random, band: &Band) -> f64 {
    let tone = random.below(band.tones as usize) as u32;
    let (lower, upper) = (band.edge(tone), band.edge(tone + 1));
    random.pick(&[lower, lower.next_up(), upper.next_down()])
}

/// Measurements at 0 and next to it, with either sign; a band from 0 owns those that are not negative, and -0.0.
pub fn small(random: &mut Random) -> f64 {
    let least = f64::from_bits(1);
    let subnormal = f64::from_bits(random.number() >> 12);
    let greatest_subnormal = f64::MIN_POSITIVE.next_down();
    let hertz = random.pick(&[
        0.0,
        0.0,
        least,
        subnormal,
        greatest_subnormal,
        f64::MIN_POSITIVE,
    ]);
    random.pick(&[hertz, -hertz])
}

/// A finite measurement outside the band, if it is within the limits: at an end or next to it, far away, or below 0.
pub fn outside(random: &mut Random, band: &Band) -> f64 {
    let (lower, upper) = (band.lower, band.upper());
    match random.below(4) {
        0 => random.pick(&[lower.next_down(), upper, upper.next_up()]),
        1 => {
            let far = [f64::MAX, -f64::MAX, 2f64.powi(1023), -(2f64.powi(1023))];
            random.pick(&far)
        }
        2 => -random.pick(&[upper, upper.next_down(), lower + 0.5]),
        _ => {
            let away = (1 + random.below(1 << 20)) as f64 / 64.0;
            random.pick(&[lower - away, upper + away])
        }
    }
}

/// Infinite, or not a number, with any payload.
pub fn not_finite(random: &mut Random) -> f64 {
    let exponent = f64::INFINITY.to_bits();
    let fraction = match random.below(4) {
        0 | 1 => 0,
        2 => random.pick(&[1, 1 << 51, (1 << 51) + 1, (1 << 52) - 1, (1 << 51) - 1]),
        _ => random.number() >> 12 | 1,
    };
    let sign = random.number() >> 63 << 63;
    f64::from_bits(sign | exponent | fraction)
}
