//! Refusals in words: order 8 of document 02. "The team lists them in docs/", and the list is read from there.

use super::refusals::{refusal, require, Refusal};
use super::GREATEST_LEAD;
use std::sync::LazyLock;

const DOCUMENT: &str = include_str!("../../../docs/REFUSALS.md");

/// "Places go up to 65,535."
pub const GREATEST_PLACE: u32 = 65_535;

/// "Each refusal so far, 20 included, gets one fixed English sentence": in it `#` stands for the place and `%` for the lead.
#[derive(Clone, Copy, Debug)]
pub struct Row {
    pub number: u32,
    pub words: &'static str,
}

static ROWS: LazyLock<Vec<Row>> = LazyLock::new(|| DOCUMENT.lines().filter_map(Row::of).collect());

/// The rows of the list, in its order.
pub fn rows() -> &'static [Row] {
    &ROWS
}

impl Row {
    /// The row that a line of the document is, if it has a number in its first column.
    fn of(line: &'static str) -> Option<Self> {
        let mut columns = line.strip_prefix('|')?.split('|').map(str::trim);
        let number = columns.next()?.parse().ok()?;
        let words = columns.next()?.strip_prefix('`')?.strip_suffix('`')?;
        Some(Row { number, words })
    }

    pub fn has_lead(&self) -> bool {
        self.words.contains('%')
    }

    /// "With place and lead in decimal without leading zeros."
    pub fn sentence(&self, place: u32, lead: u32) -> Vec<u8> {
        let words = self.words.replace('#', &place.to_string());
        words.replace('%', &lead.to_string()).into_bytes()
    }

    /// Where the place stands.
    fn place_at(&self) -> usize {
        self.words.find('#').expect("a mark of the place")
    }

    /// Where the lead stands, if the row has one: behind the place, which has its digits for the mark.
    fn lead_at(&self, place: u32) -> Option<usize> {
        let mark = self.words.find('%')?;
        Some(mark - 1 + place.to_string().len())
    }

    /// Some of the row's sentences. Among them are the one that the bytes are, if they are one of the row's, and one that shares
    /// as long a beginning with them as any of the row's.
    ///
    /// Why no other place is needed than 0 and the numbers that the bytes have at the mark: take any sentence of the row. If it
    /// shares no digit of its place with the bytes, every other one shares as much. If it shares all of them, its place is one of
    /// these numbers. If it shares some, they are by themselves the decimal of a smaller place, which is one of these numbers, and
    /// whose sentence shares as much. So too, for each place, of the leads.
    fn near(&self, bytes: &[u8]) -> Vec<(Refusal, Vec<u8>)> {
        let mut near = vec![];
        for place in numbers_at(bytes, self.place_at(), GREATEST_PLACE) {
            let leads = match self.lead_at(place) {
                Some(at) => numbers_at(bytes, at, GREATEST_LEAD),
                None => vec![0],
            };
            for lead in leads {
                let said = Refusal {
                    number: self.number,
                    place: place as usize,
                    lead,
                };
                near.push((said, self.sentence(place, lead)));
            }
        }
        near
    }
}

/// 0, and every number that the bytes have from `at` on, with as many digits as there may be; none is above the greatest.
fn numbers_at(bytes: &[u8], at: usize, greatest: u32) -> Vec<u32> {
    let lengths = 1..=greatest.to_string().len();
    let beginnings = lengths.filter_map(|length| bytes.get(at..at + length));
    let numbers = beginnings.filter_map(|digits| std::str::from_utf8(digits).ok()?.parse().ok());
    [0].into_iter()
        .chain(numbers.filter(|&number| number <= greatest))
        .collect()
}

/// The length of the longest beginning that both have.
pub fn shared(one: &[u8], other: &[u8]) -> usize {
    let pairs = one.iter().zip(other);
    pairs.take_while(|(one, other)| one == other).count()
}

/// "In writing, 20 with place 0 meets an unknown number, a place or lead above these, or a lead other than 0 for a refusal that has
/// none; refusal 9 follows it, for an output shorter than the sentence."
pub fn write_sentence(number: u32, place: u32, lead: u32, room: usize) -> Result<Vec<u8>, Refusal> {
    let known = rows().iter().find(|row| row.number == number);
    let row = known.ok_or(refusal(20, 0))?;
    require(place <= GREATEST_PLACE && lead <= GREATEST_LEAD, 20)?;
    require(row.has_lead() || lead == 0, 20)?;
    let sentence = row.sentence(place, lead);
    require(sentence.len() <= room, 9)?;
    Ok(sentence)
}

/// "A sentence can be read back to what it came from." "20, a sentence not of this kind; its place is the length of the longest
/// beginning it shares with any sentence of the list."
pub fn read_sentence(bytes: &[u8]) -> Result<Refusal, Refusal> {
    let near: Vec<_> = rows().iter().flat_map(|row| row.near(bytes)).collect();
    if let Some((said, _)) = near.iter().find(|(_, sentence)| sentence == bytes) {
        return Ok(*said);
    }
    let longest = near.iter().map(|(_, sentence)| shared(sentence, bytes));
    Err(refusal(20, longest.max().expect("a sentence of the list")))
}
