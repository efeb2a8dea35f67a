//! Random inputs of the listing program: feeds, right and wrong, feeds with other bytes in them, and noise.

use super::super::compare::draw::{self, Wrong};
use olivia_tests::paper;
use olivia_tests::random::Random;

/// Numbers at the edge of what is readable, and words that are none.
const WORDS: [&str; 16] = [
    "65534",
    "65535",
    "65536",
    "65537",
    "65545",
    "99999",
    "100000",
    "131072",
    "0000065535",
    "0000065536",
    "4294967296",
    "18446744073709551616",
    "--",
    "-1",
    "1-",
    "+1",
];

/// Bytes that stand in a feed, or beside those that do.
const BYTES: &[u8] = b"0123456789  --\n\n\r\t/:+,.\0";

/// A feed of this mode that is readable and breaks no limit.
pub fn right_feed(random: &mut Random, b: usize) -> Vec<u8> {
    text(&lines(random, b, &Wrong::default()))
}

/// A feed of mode 8 whose listing is longer than a pipe holds.
pub fn long_feed(random: &mut Random) -> Vec<u8> {
    let codes: Vec<u8> = (0..8).map(|_| random.code()).collect();
    let tones = paper::block_tones(8, &codes);
    let mut lines = vec![words(&[8, 64])];
    lines.resize(1001, words(&tones));
    text(&lines)
}

/// A feed of this mode that may break limits, and half of which have up to three changes.
pub fn feed(random: &mut Random, b: usize) -> Vec<u8> {
    let wrong = Wrong {
        mode: random.one_in(10),
        lead: random.one_in(10),
        count: random.one_in(5),
        content: random.one_in(4),
        ..Wrong::default()
    };
    let mut lines = lines(random, b, &wrong);
    if random.one_in(6) {
        let words = random.below(lines.len());
        draw::spoil(random, &mut lines[words], |random| {
            random.pick(&WORDS).to_string()
        });
    }
    let mut text = text(&lines);
    for _ in 0..random.pick(&[0, 0, 0, 1, 2, 3]) {
        change(random, &mut text);
    }
    text
}

/// Bytes of any value, or those that a feed is made of, behind a right first line or none.
pub fn noise(random: &mut Random) -> Vec<u8> {
    let longest = random.pick(&[10, 100, 1000, 20_000]);
    let length = random.between(0, longest);
    let any = random.one_in(2);
    let mut text = random.pick(&["", "1 64\n"]).as_bytes().to_vec();
    text.extend((0..length).map(|_| byte(random, any)));
    text
}

fn byte(random: &mut Random, any: bool) -> u8 {
    if any {
        random.below(256) as u8
    } else {
        random.pick(BYTES)
    }
}

/// The words of each line; what is wrong with a block is so with one of them.
fn lines(random: &mut Random, b: usize, wrong: &Wrong) -> Vec<Vec<String>> {
    let mode = draw::mode(random, b, wrong.mode);
    let least_lead = draw::least_lead(random, wrong.lead);
    let blocks = match random.below(64) {
        0 => random.between(250, 300),
        1..10 => random.between(20, 80),
        10..16 => 0,
        _ => random.between(1, 4),
    };
    let worst = random.below(blocks.max(1));
    let mut lines = vec![vec![mode.to_string(), least_lead.to_string()]];
    for block in 0..blocks {
        let codes: Vec<u8> = (0..b).map(|_| random.code()).collect();
        let mut tones = draw::heard(random, b, &codes, least_lead);
        if wrong.content && block == worst {
            draw::spoil(random, &mut tones, |random| draw::wrong_tone(random, b));
        }
        if wrong.count && block == worst {
            let count = wrong_count(random);
            tones = tones.into_iter().cycle().take(count).collect();
        }
        lines.push(tones.iter().map(|&tone| word(random, tone)).collect());
    }
    lines
}

/// Those picked are 64 in the last 8 or 16 bits.
fn wrong_count(random: &mut Random) -> usize {
    match random.below(8) {
        0 => random.pick(&[320, 320, 320, 65_600]),
        _ => draw::wrong_length(random, paper::SYMBOLS),
    }
}

fn words(numbers: &[u16]) -> Vec<String> {
    numbers.iter().map(u16::to_string).collect()
}

fn word(random: &mut Random, tone: u16) -> String {
    match (tone, random.below(100)) {
        (paper::MISSING, 0..20) => tone.to_string(),
        (paper::MISSING, _) => "-".to_string(),
        (_, 0) => format!("{}{tone}", "0".repeat(random.between(1, 9))),
        _ => tone.to_string(),
    }
}

fn text(lines: &[Vec<String>]) -> Vec<u8> {
    let ended = |words: &Vec<String>| words.join(" ") + "\n";
    lines.iter().map(ended).collect::<String>().into_bytes()
}

/// Changes an input in one way.
fn change(random: &mut Random, text: &mut Vec<u8>) {
    // One change in four is made in the first line or close behind.
    let last = if random.one_in(4) { 6 } else { text.len() };
    let place = random.between(0, last.min(text.len()));
    match random.below(11) {
        0 => put_in(text, place, &[byte(random, true)]),
        1 => put_in(text, place, &[byte(random, false)]),
        2 => put_in(text, place, &long(random)),
        3 => put_in(text, beside(random, text, b' '), b" "),
        4 => put_in(text, beside(random, text, b'\n'), b"\n"),
        5 => put_in(text, beside(random, text, b'\n'), &[byte(random, false)]),
        6 => put_in(text, text.len(), &[byte(random, false)]),
        7 => drop(text.drain(place..text.len().min(place + 1))),
        8 => drop(text.pop()),
        9 => text.truncate(place),
        _ => *text = with_carriage_returns(text),
    }
}

fn put_in(text: &mut Vec<u8>, place: usize, bytes: &[u8]) {
    text.splice(place..place, bytes.iter().copied());
}

/// A place before or behind this byte, or the end of a text that has none.
fn beside(random: &mut Random, text: &[u8], byte: u8) -> usize {
    let places: Vec<usize> = (0..text.len()).filter(|&at| text[at] == byte).collect();
    if places.is_empty() {
        text.len()
    } else {
        random.pick(&places) + random.below(2)
    }
}

/// Digits, marks or tones for thousands of bytes.
fn long(random: &mut Random) -> Vec<u8> {
    let part = random.pick(&["0", "7", "-", " ", "0 ", " 1", " -", "65535 "]);
    part.repeat(random.between(1, 4000)).into_bytes()
}

fn with_carriage_returns(text: &[u8]) -> Vec<u8> {
    let lines: Vec<&[u8]> = text.split(|&byte| byte == b'\n').collect();
    lines.join(&b"\r\n"[..])
}

/// Cuts an input into pieces at any places, where one in four is cut into the smallest.
pub fn cut<'a>(random: &mut Random, input: &'a [u8]) -> Vec<&'a [u8]> {
    // No more than some hundreds of pieces, so that a long input does not take long.
    let longest = random.pick(&[1, 10, 300, 5000]).max(input.len() / 200);
    let mut pieces = vec![];
    let mut rest = input;
    while !rest.is_empty() {
        let (piece, after) = rest.split_at(random.between(1, longest.min(rest.len())));
        pieces.push(piece);
        rest = after;
    }
    pieces
}
