//! The range check by itself: order 2 of document 02.

use super::refusals::{check_heard, checked_mode, Refusal};

/// What the range check found, and how many tones it looked at.
#[derive(Clone, Copy, Debug, PartialEq, Eq)]
pub struct Looked {
    pub found: Result<(), Refusal>,
    pub looked: usize,
}

/// "It should stop at the first bad one and also return how many tones it looked at: that one's place plus one, or all if none is
/// bad." Where the paper is silent: without a mode no tone is looked at.
pub fn check_tones(mode: u32, tones: &[u16]) -> Looked {
    let (found, looked) = match checked_mode(mode).map(|b| check_heard(b, tones)) {
        Err(no_mode) => (Err(no_mode), 0),
        Ok(Err(bad)) => (Err(bad), bad.place + 1),
        Ok(Ok(())) => (Ok(()), tones.len()),
    };
    Looked { found, looked }
}
