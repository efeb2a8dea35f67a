//! The paper's reading, which compares the bytes with few sentences, against reading by every sentence of the list.

use super::super::{expect_equal, Report};
use super::cases;
use super::damaged::SOURCES;
use olivia_tests::paper::{read_sentence, rows, shared, Refusal, Row};
use olivia_tests::paper::{GREATEST_LEAD, GREATEST_PLACE};
use olivia_tests::random::Random;

/// Random bytes of each source.
const REPEATS: usize = 2;

/// Bytes, the longest beginning that they share with the sentences met so far, and the refusal of the one that they are.
struct Reading {
    bytes: Vec<u8>,
    longest: usize,
    said: Option<Refusal>,
}

impl Reading {
    fn new(bytes: Vec<u8>) -> Self {
        Reading {
            bytes,
            longest: 0,
            said: None,
        }
    }

    /// Meets a sentence, and answers with how much it shares.
    fn meet(&mut self, number: u32, place: u32, lead: u32, sentence: &[u8]) -> usize {
        let length = shared(sentence, &self.bytes);
        self.longest = self.longest.max(length);
        if sentence == self.bytes {
            self.said = Some(Refusal {
                number,
                place: place as usize,
                lead,
            });
        }
        length
    }

    /// Meets the row's sentences with this place and any lead. They are alike before the lead: where the bytes differ from one
    /// there, they differ from each.
    fn meet_leads(&mut self, row: &Row, place: u32, sentence: &[u8]) {
        let length = self.meet(row.number, place, 0, sentence);
        if row.has_lead() && length >= shared(sentence, &row.sentence(place, 1)) {
            for lead in 1..=GREATEST_LEAD {
                self.meet(row.number, place, lead, &row.sentence(place, lead));
            }
        }
    }

    fn expect_same(&self) -> Result<(), String> {
        let said = read_sentence(&self.bytes).map_err(|refusal| refusal.place);
        let bytes = String::from_utf8_lossy(&self.bytes);
        expect_equal(&format!("{bytes:?}"), self.said.ok_or(self.longest), said)
    }
}

pub fn run(random: &mut Random) -> Report {
    let mut drawn = vec![];
    for (_, draw) in SOURCES {
        drawn.extend((0..REPEATS).map(|_| draw(random)));
    }
    let inputs = cases::inputs().chain(drawn);
    let mut readings: Vec<Reading> = inputs.map(Reading::new).collect();
    for row in rows() {
        for place in 0..=GREATEST_PLACE {
            let sentence = row.sentence(place, 0);
            for reading in &mut readings {
                reading.meet_leads(row, place, &sentence);
            }
        }
    }
    for reading in &readings {
        reading.expect_same()?;
    }
    let count = readings.len();
    Ok(format!(
        "{count} inputs that the paper reads as every sentence of the list says"
    ))
}
