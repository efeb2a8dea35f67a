//! The numbers of f64 as they are: each finite one is a whole number of 2^-1074, with a sign. They are read and made by their bits,
//! and nothing is reckoned in f64.

/// The binary digits of an f64, and those after the first, which is not kept.
const DIGITS: usize = 53;
const FRACTION: usize = 52;

/// Words of 64 bits: the greatest f64 is below 2^1024, and so below 2^2098 times 2^-1074.
const WORDS: usize = 33;

/// A whole number of 2^-1074, the word that weighs most first, so that the order of the words is that of the numbers.
#[derive(Clone, Copy, Debug, PartialEq, Eq, PartialOrd, Ord)]
pub struct Magnitude([u64; WORDS]);

/// The exponent as it is kept, in eleven bits: 0 is that of the numbers whose first digit is 0, and 2047 that of what is infinite
/// or not a number.
fn kept_exponent(number: f64) -> usize {
    (number.to_bits() >> FRACTION) as usize % 2048
}

pub fn is_finite(number: f64) -> bool {
    kept_exponent(number) != 2047
}

/// Below 0: with the sign, and not −0.0, which is 0.
pub fn is_negative(number: f64) -> bool {
    number.to_bits() >> 63 == 1 && number.to_bits() << 1 != 0
}

impl Magnitude {
    /// That of a finite f64.
    pub fn of(number: f64) -> Self {
        let fraction = number.to_bits() % (1 << FRACTION);
        match kept_exponent(number) {
            0 => Magnitude::at(fraction, 0),
            exponent => Magnitude::at(1 << FRACTION | fraction, exponent - 1),
        }
    }

    /// So many 512ths.
    pub fn of_512ths(number: u32) -> Self {
        Magnitude::at(number.into(), 1074 - 9)
    }

    /// So many times 2^place, in 2^-1074.
    fn at(number: u64, place: usize) -> Self {
        let mut words = [0; WORDS];
        let shifted = u128::from(number) << (place % 64);
        let word = WORDS - 1 - place / 64;
        words[word] = shifted as u64;
        words[word - 1] = (shifted >> 64) as u64;
        Magnitude(words)
    }

    fn bit(&self, place: usize) -> u64 {
        self.0[WORDS - 1 - place / 64] >> (place % 64) & 1
    }

    /// What is left after a smaller magnitude, or an equal one, is taken away.
    pub fn minus(&self, smaller: &Self) -> Self {
        let mut words = [0; WORDS];
        let mut borrowed = false;
        for word in (0..WORDS).rev() {
            let (left, first) = self.0[word].overflowing_sub(smaller.0[word]);
            let (left, second) = left.overflowing_sub(borrowed.into());
            words[word] = left;
            borrowed = first || second;
        }
        assert!(!borrowed, "a greater magnitude is taken away");
        Magnitude(words)
    }

    /// The f64 that is nearest to this; of two that are equally near, the one whose last digit is 0.
    pub fn rounded(&self) -> f64 {
        let length = (1..=64 * WORDS).rev().find(|&n| self.bit(n - 1) == 1);
        let lost = length.unwrap_or(0).saturating_sub(DIGITS);
        let kept = (0..DIGITS).map(|digit| self.bit(lost + digit) << digit);
        let kept: u64 = kept.sum();
        let is_half = lost > 0 && self.bit(lost - 1) == 1;
        let is_more = (0..lost.saturating_sub(1)).any(|place| self.bit(place) == 1);
        let up = is_half && (is_more || kept % 2 == 1);
        // Where the first digit is 1, it adds 1 to the exponent, as it should, and so does what is carried past it.
        f64::from_bits(((lost as u64) << FRACTION) + kept + u64::from(up))
    }
}
