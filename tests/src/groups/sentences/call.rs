//! A sentence to be written and bytes to be read, each handed to the library and to the paper.

use super::super::lent::Lent;
use super::super::{answer_of, expect_equal, written};
use olivia_tests::library::{self, SentenceRead};
use olivia_tests::paper::{self, Refusal};

/// What is handed in to be written, with the length of the output.
#[derive(Clone, Copy, Debug)]
pub struct Write {
    pub number: u32,
    pub place: u32,
    pub lead: u32,
    pub room: usize,
}

impl Write {
    pub fn new(number: u32, place: u32, lead: u32, room: usize) -> Self {
        Write {
            number,
            place,
            lead,
            room,
        }
    }

    /// What the library writes, or the refusal's number: what the paper says, with no other byte of the output written.
    pub fn run(&self) -> Result<Result<Vec<u8>, u32>, String> {
        let said = paper::write_sentence(self.number, self.place, self.lead, self.room);
        let met = self.expect(&said);
        met.map_err(|difference| format!("{self:?}: {difference}"))?;
        Ok(said.map_err(|refusal| refusal.number))
    }

    fn expect(&self, said: &Result<Vec<u8>, Refusal>) -> Result<(), String> {
        let mut out = Lent::output(self.room);
        let given = library::write_sentence(self.number, self.place, self.lead, out.part());
        expect_equal("written", answer_of(said), given)?;
        out.expect("output", written(said))
    }

    /// The same, and it is this.
    pub fn expect_written(&self, wanted: Result<&str, u32>) -> Result<(), String> {
        let given = self.run()?.map(|sentence| text(&sentence));
        expect_equal(
            &format!("{self:?} by hand"),
            wanted.map(str::to_string),
            given,
        )
    }
}

/// What is read: the refusal that a sentence says, or the place of refusal 20.
pub type Told = Result<Refusal, usize>;

/// What the library reads, which is what the paper says; the bytes stay as they were.
pub fn read(bytes: &[u8]) -> Result<Told, String> {
    let said = paper::read_sentence(bytes).map_err(|refusal| refusal.place);
    expect_read(bytes, said)?;
    Ok(said)
}

/// The library reads this; the bytes stay as they were.
pub fn expect_read(bytes: &[u8], wanted: Told) -> Result<(), String> {
    let mut lent = Lent::input(bytes);
    let given = library::read_sentence(lent.part());
    let met =
        expect_equal("read", read_of(wanted), given).and_then(|()| lent.expect("bytes", bytes));
    met.map_err(|difference| format!("{:?}: {difference}", text(bytes)))
}

/// What the library tells of a sentence read that stands for this.
fn read_of(told: Told) -> SentenceRead {
    let mut read = SentenceRead::default();
    match told {
        Ok(said) => {
            read.number = said.number;
            read.place = said.place as u32;
            read.lead = said.lead;
        }
        Err(place) => {
            read.answer.number = 20;
            read.answer.place = place as u32;
        }
    }
    read
}

/// Bytes as they are shown.
fn text(bytes: &[u8]) -> String {
    String::from_utf8_lossy(bytes).into_owned()
}
