//! The two receivers of demand 3: what each has to give, what the second gave, and how often.

use super::{expect_equal, lent::Lent};
use olivia_tests::library::{Answer, Block, Character};
use olivia_tests::paper;

/// What the second receiver gave.
#[derive(Clone, Copy, Debug, PartialEq)]
pub enum Met {
    SameText,
    Unclear,
    OtherText,
}

/// What the demand says of a damaged block: the same text is given, and no other text is given.
#[derive(Clone, Copy)]
pub struct Bounds {
    pub keeps_text: bool,
    pub shuts_out_others: bool,
}

impl Bounds {
    pub fn expect(self, met: Met) -> Result<(), String> {
        if self.keeps_text {
            expect_equal("within the first bound", Met::SameText, met)?;
        }
        if self.shuts_out_others && met == Met::OtherText {
            return Err(
                "within the second bound\n  wanted SameText or Unclear\n  given  OtherText".into(),
            );
        }
        Ok(())
    }
}

/// What was met in one mode.
#[derive(Default)]
pub struct Tally {
    pub blocks: usize,
    pub same_text: usize,
    pub unclear: usize,
    pub beyond: usize,
    pub other_text: usize,
}

impl Tally {
    pub fn add(&mut self, bounds: Bounds, met: Met) {
        self.blocks += 1;
        self.beyond += usize::from(!bounds.shuts_out_others);
        match met {
            Met::SameText => self.same_text += 1,
            Met::Unclear => self.unclear += 1,
            Met::OtherText => self.other_text += 1,
        }
    }

    pub fn line(&self, b: usize) -> String {
        format!(
            "\n  mode {b}: {} blocks, {} with the same text, {} unclear; {} of the {} beyond the second bound with another text",
            self.blocks, self.same_text, self.unclear, self.other_text, self.beyond
        )
    }
}

/// The text was sent, and the first receiver gave it.
pub fn expect_sent_and_first(
    text: &[u8],
    answers: [Answer; 2],
    tones: &Lent<u16>,
    first: &Lent<u8>,
) -> Result<(), String> {
    let b = text.len();
    expect_equal("encoded", accepted(paper::SYMBOLS), answers[0])?;
    tones.expect("tones", &paper::block_tones(b, text))?;
    expect_equal("first", accepted(b), answers[1])?;
    first.expect("first text", text)
}

/// What the second receiver gave, who wrote it to `codes`, and in the trial to `second`. Nothing is written if it is unclear.
pub fn second(
    text: &[u8],
    least_lead: usize,
    block: &Block,
    codes: &mut Lent<u8>,
    second: &Lent<u8>,
) -> Result<Met, String> {
    let met = met(text, least_lead, block, codes)?;
    let given = match met {
        Met::Unclear => vec![],
        Met::SameText | Met::OtherText => codes.part().to_vec(),
    };
    codes.expect("codes", &given)?;
    second.expect("second text", &given)?;
    Ok(met)
}

fn accepted(count: usize) -> Answer {
    Answer {
        count: count as u32,
        ..Answer::default()
    }
}

/// What the answer is, which has to be the one that its own records call for.
fn met(text: &[u8], least_lead: usize, block: &Block, codes: &mut Lent<u8>) -> Result<Met, String> {
    let b = text.len();
    let (records, rest) = block.characters.split_at(b);
    records.iter().try_for_each(expect_consistent)?;
    let empty = [Character::default(); 8];
    expect_equal("records past the mode's", &empty[b..], rest)?;
    let is_unclear = |record: &Character| (record.lead as usize) < least_lead;
    let lowest = records.iter().position(is_unclear);
    let wanted = match lowest {
        Some(q) => Answer {
            number: 10,
            place: q as u32,
            lead: records[q].lead,
            count: 0,
        },
        None => accepted(b),
    };
    expect_equal("answer to these records", wanted, block.answer)?;
    if lowest.is_none() {
        let told: Vec<u32> = records.iter().map(|record| record.code).collect();
        let given: Vec<u32> = codes.part().iter().map(|&code| code.into()).collect();
        expect_equal("codes of these records", told, given)?;
    }
    Ok(match lowest {
        Some(_) => Met::Unclear,
        None if codes.part() == text => Met::SameText,
        None => Met::OtherText,
    })
}

/// A record names two words, "the lead must equal the difference of the two magnitudes in it", and its code is that of its winner.
fn expect_consistent(record: &Character) -> Result<(), String> {
    let words = record.word < 64 && record.next < 64 && record.word != record.next;
    expect_equal("two words in a record", true, words)?;
    let rival = record.next_correlation.unsigned_abs();
    let lead = record.correlation.unsigned_abs().checked_sub(rival);
    expect_equal("lead in a record", lead, Some(record.lead))?;
    let turned = if record.correlation < 0 { 64 } else { 0 };
    expect_equal("code in a record", record.word + turned, record.code)
}
