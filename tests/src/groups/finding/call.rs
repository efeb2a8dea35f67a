//! A call of the finder, and what it has to give.

use super::super::expect_equal;
use super::super::heard::Wanted;
use super::super::lent::Lent;
use super::block_found;
use olivia_tests::library;
use olivia_tests::paper::{self, SYMBOLS};

/// What is handed to the entry.
#[derive(Clone)]
pub struct Call {
    mode: u32,
    least_lead: u32,
    run: Vec<u16>,
    room: usize,
}

impl Call {
    /// At the greatest set lead, with room for the codes of any mode.
    pub fn new(b: usize, run: Vec<u16>) -> Self {
        Call {
            mode: b as u32,
            least_lead: 64,
            run,
            room: 8,
        }
    }

    pub fn at(&self, least_lead: u32) -> Self {
        let call = self.clone();
        Call { least_lead, ..call }
    }

    pub fn with_mode(&self, mode: u32) -> Self {
        let call = self.clone();
        Call { mode, ..call }
    }

    pub fn with_room(&self, room: usize) -> Self {
        let call = self.clone();
        Call { room, ..call }
    }

    pub fn with_tone(&self, place: usize, tone: u16) -> Self {
        let mut call = self.clone();
        call.run[place] = tone;
        call
    }

    /// The tones from a place on.
    pub fn from(&self, place: usize) -> Self {
        let run = self.run[place..].to_vec();
        let call = self.clone();
        Call { run, ..call }
    }

    /// The paper says this, and the library gives it and leaves the run as it was.
    pub fn expect(&self, start: usize, wanted: Wanted) -> Result<(), String> {
        let said = paper::find_block(self.mode, self.least_lead, &self.run, self.room);
        let mut run = Lent::input(&self.run);
        let mut codes = Lent::output(self.room);
        let given = library::find_block(self.mode, self.least_lead, run.part(), codes.part());
        wanted.expect(&said.heard, block_found(given), &codes)?;
        expect_equal("start, by the paper", start, said.start)?;
        expect_equal("start", start, given.start as usize)?;
        run.expect("run handed in", &self.run)
    }

    pub fn expect_refused(&self, number: u32, place: usize) -> Result<(), String> {
        self.expect(0, Wanted::refused(number, place as u32))
    }

    /// The block is found at this start, and by itself decode_block refuses every one before it as unclear.
    pub fn expect_first(&self, start: usize, wanted: Wanted) -> Result<(), String> {
        for (before, tones) in self.run.windows(SYMBOLS).enumerate().take(start) {
            let block = library::decode_block(self.mode, self.least_lead, tones, &mut [0; 8]);
            let what = format!("decode_block at start {before}");
            expect_equal(&what, 10, block.answer.number)?;
        }
        self.expect(start, wanted)
    }
}
