//! A call of locate, and what it has to tell.

use super::super::expect_equal;
use olivia_tests::library;
use olivia_tests::paper;
use std::fmt;

/// An f64, compared and shown by its bits.
#[derive(Clone, Copy, PartialEq, Eq)]
pub struct Bits(pub u64);

impl Bits {
    pub fn of(number: f64) -> Self {
        Bits(number.to_bits())
    }

    pub fn number(self) -> f64 {
        f64::from_bits(self.0)
    }
}

impl fmt::Debug for Bits {
    fn fmt(&self, formatter: &mut fmt::Formatter) -> fmt::Result {
        write!(formatter, "{:#018x} ({:e})", self.0, self.number())
    }
}

/// A tone and how far off it is, or the number of a refusal, whose place is 0.
pub type Told = Result<(u32, Bits), u32>;

/// What is handed in.
#[derive(Clone, Copy, Debug)]
pub struct Call {
    pub mode: u32,
    pub width: u32,
    pub centre: u32,
    pub hertz: Bits,
}

impl Call {
    /// What the library tells, which is what the paper says.
    pub fn run(&self) -> Result<Told, String> {
        let hertz = self.hertz.number();
        let given = library::locate(self.mode, self.width, self.centre, hertz);
        let (number, off) = (given.number, Bits::of(given.hertz_off));
        let wanted = match paper::locate(self.mode, self.width, self.centre, hertz) {
            Ok(said) => (0, 0, said.tone, Bits::of(said.hertz_off)),
            Err(refusal) => (refusal.number, refusal.place as u32, 0, Bits::of(0.0)),
        };
        expect_equal("located", wanted, (number, given.place, given.tone, off))?;
        if number > 0 {
            return Ok(Err(number));
        }
        self.expect_near(given.tone, given.hertz_off)?;
        Ok(Ok((given.tone, off)))
    }

    /// The distance is what the machine subtracts, and from minus half a spacing up to, but without, half a spacing.
    fn expect_near(&self, tone: u32, off: f64) -> Result<(), String> {
        let subtracted = self.hertz.number() - self.frequency(tone);
        expect_equal("distance", Bits::of(subtracted), Bits::of(off))?;
        let half = f64::from(self.width) / f64::from(2 << self.mode);
        expect_equal("within half a spacing", true, -half <= off && off < half)
    }

    /// The frequency that the library has for this tone.
    pub fn frequency(&self, tone: u32) -> f64 {
        library::frequency(self.mode, self.width, self.centre, tone as u16).hertz
    }

    /// With the tone's frequency added to it, a distance that is rounded does not give the measurement back, and any other does.
    pub fn is_rounded(&self, tone: u32, off: f64) -> bool {
        self.frequency(tone) + off != self.hertz.number()
    }

    pub fn expect(&self, wanted: Told) -> Result<(), String> {
        let met = self
            .run()
            .and_then(|given| expect_equal("located by hand", wanted, given));
        met.map_err(|difference| format!("{self:?}: {difference}"))
    }

    /// The tone alone, or the refusal.
    pub fn expect_tone(&self, wanted: Result<u32, u32>) -> Result<(), String> {
        let met = self.run().and_then(|given| {
            let tone = given.map(|(tone, _)| tone);
            expect_equal("tone by hand", wanted, tone)
        });
        met.map_err(|difference| format!("{self:?}: {difference}"))
    }
}
