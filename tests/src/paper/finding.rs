//! The block in a long run of tones: order 1 of document 02.

use super::hearing::{hear, Heard, PLAIN};
use super::refusals::{check_heard, check_lead, checked_mode, refusal, require, Refusal};
use super::SYMBOLS;

/// "The board sometimes delivers a run of 64 to 4,096 tones with the start unknown."
pub const LONGEST_RUN: usize = 4096;

/// What is found in a run: the start, and what is heard there. "The finder's carries [the records] of the block found" (order 5). "On
/// a refusal the stretch is empty": the start is 0, and there are no records.
#[derive(Clone, Debug, PartialEq, Eq)]
pub struct Finding {
    pub start: usize,
    pub heard: Heard,
}

impl Finding {
    fn nothing(refusal: Refusal) -> Self {
        Finding {
            start: 0,
            heard: Heard::nothing(refusal),
        }
    }
}

/// "The first start, counted from 0, at which 64 tones are accepted at lead m." "13, no start is accepted, place 0; it comes after 8
/// and stands in the place of 10."
fn first_accepted(b: usize, least_lead: u32, run: &[u16]) -> Finding {
    let at = |(start, tones)| Finding {
        start,
        heard: hear(b, least_lead, tones, &PLAIN),
    };
    run.windows(SYMBOLS)
        .enumerate()
        .map(at)
        .find(|finding| finding.heard.text.is_ok())
        .unwrap_or_else(|| Finding::nothing(refusal(13, 0)))
}

/// "Its b codes are written to the output, for which refusal 9 wants b bytes. The run's own limits replace the count of 64 in refusal
/// 7." So the checks are 1, 2, 7, 9, 8, 13.
pub fn find_block(mode: u32, least_lead: u32, run: &[u16], room: usize) -> Finding {
    let checked = || -> Result<usize, Refusal> {
        let b = checked_mode(mode)?;
        check_lead(least_lead)?;
        require((SYMBOLS..=LONGEST_RUN).contains(&run.len()), 7)?;
        require(room >= b, 9)?;
        check_heard(b, run)?;
        Ok(b)
    };
    match checked() {
        Ok(b) => first_accepted(b, least_lead, run),
        Err(refusal) => Finding::nothing(refusal),
    }
}
