//! The listing program, at the end of the bench sheet, and in order 5 of document 02.

use super::hearing::{decode_block, Character};
use super::refusals::{check_lead, checked_mode, Refusal};
use super::MISSING;

/// What ends a listing before its END.
enum Stop {
    Refused(Refusal),
    /// With the number of the line, "from 1".
    Unreadable(usize),
}

/// "The heading is always printed first." "END counts blocks read." "Another refusal prints REFUSED, number, place, one space
/// between, and stops without END; unreadable text prints REFUSED INPUT and the line number from 1, and stops likewise." In document
/// 02: "The listing's heading gains ` WORD CORR NEXT CORR`."
pub fn listed(input: &[u8]) -> Vec<u8> {
    let mut printed = "BLOCK CHAR CODE LEAD WORD CORR NEXT CORR\n".to_string();
    let last = match list_blocks(input, &mut printed) {
        Ok(blocks) => format!("END {blocks}\n"),
        Err(Stop::Refused(refusal)) => format!("REFUSED {} {}\n", refusal.number, refusal.place),
        Err(Stop::Unreadable(line)) => format!("REFUSED INPUT {line}\n"),
    };
    (printed + &last).into_bytes()
}

/// "A line with b and m, then one line of 64 tones a block." "Mode and lead are checked on line 1, even if no block follows."
/// "Empty input is unreadable at line 1." "Readability of a whole line is judged first." Answers with the count of blocks.
fn list_blocks(input: &[u8], printed: &mut String) -> Result<usize, Stop> {
    let lines = lines_of(input);
    let first = lines.first().ok_or(Stop::Unreadable(1))?;
    let (mode, least_lead) = first_line(first).ok_or(Stop::Unreadable(1))?;
    checked_mode(mode).map_err(Stop::Refused)?;
    check_lead(least_lead).map_err(Stop::Refused)?;
    for (block, line) in lines[1..].iter().enumerate() {
        let tones = block_line(line).ok_or(Stop::Unreadable(block + 2))?;
        *printed += &block_lines(block, mode, least_lead, &tones).map_err(Stop::Refused)?;
    }
    Ok(lines.len() - 1)
}

/// "The last line feed may be absent": behind a line feed that is the last byte no line begins.
fn lines_of(input: &[u8]) -> Vec<&[u8]> {
    let mut lines: Vec<&[u8]> = input.split(|&byte| byte == b'\n').collect();
    if lines.last().is_some_and(|last| last.is_empty()) {
        lines.pop();
    }
    lines
}

/// "Line 1 is readable if it is two numbers, with one space between."
fn first_line(line: &[u8]) -> Option<(u32, u32)> {
    let words: Vec<&[u8]> = words_of(line).collect();
    match words[..] {
        [mode, least_lead] => Some((number(mode)?.into(), number(least_lead)?.into())),
        _ => None,
    }
}

/// "A later line if it is empty or holds numbers or `-`, always with one space between."
fn block_line(line: &[u8]) -> Option<Vec<u16>> {
    if line.is_empty() {
        return Some(vec![]);
    }
    words_of(line).map(tone).collect()
}

/// "Always with one space between": a second space, or one at an end of the line, stands beside an empty word.
fn words_of(line: &[u8]) -> impl Iterator<Item = &[u8]> {
    line.split(|&byte| byte == b' ')
}

/// "`-` for missing."
fn tone(word: &[u8]) -> Option<u16> {
    if word == b"-" {
        Some(MISSING)
    } else {
        number(word)
    }
}

/// "A number is one or more decimal digits, at most 65,535": the largest `u16`.
fn number(word: &[u8]) -> Option<u16> {
    // `parse` takes a plus sign too.
    if !word.iter().all(u8::is_ascii_digit) {
        return None;
    }
    std::str::from_utf8(word).ok()?.parse().ok()
}

/// "Each line is block number, character's place in it, code, lead; a block refused by 10 gives one line with its place, `-` and
/// lead." In document 02: "Every character line, and the line of a block refused with 10 for its lowest unclear character, ends in
/// these four numbers, a minus before a negative one": winning word and runner-up word, each with its signed correlation.
fn block_lines(block: usize, mode: u32, least_lead: u32, tones: &[u16]) -> Result<String, Refusal> {
    let heard = decode_block(mode, least_lead, tones, mode as usize);
    let line = |place: usize, code: &str| {
        let Character {
            lead,
            word,
            correlation,
            next,
            next_correlation,
            ..
        } = heard.characters[place];
        format!("{block} {place} {code} {lead} {word} {correlation} {next} {next_correlation}\n")
    };
    match &heard.text {
        Ok(codes) => Ok(codes
            .iter()
            .enumerate()
            .map(|(place, code)| line(place, &code.to_string()))
            .collect()),
        Err(refusal) if refusal.number == 10 => Ok(line(refusal.place, "-")),
        Err(refusal) => Err(*refusal),
    }
}
