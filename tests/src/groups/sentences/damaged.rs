//! Random bytes to be read: sentences, sentences that are damaged, and noise.

use olivia_tests::paper::{rows, Row, GREATEST_LEAD, GREATEST_PLACE};
use olivia_tests::random::Random;

type Source = (&'static str, fn(&mut Random) -> Vec<u8>);

pub const SOURCES: [Source; 12] = [
    ("sentences", sentence),
    ("with a byte changed", changed),
    ("with one dropped", dropped),
    ("with one inserted", inserted),
    ("with one doubled", doubled),
    ("cut", cut),
    ("with bytes behind", followed),
    ("two joined", joined),
    ("with any number", renumbered),
    ("with any digits at the marks", with_digits),
    ("random ASCII", ascii),
    ("random bytes", noise),
];

/// The longest noise.
const LONGEST: usize = 120;

fn row(random: &mut Random) -> Row {
    random.pick(rows())
}

/// A place up to 65,535, often at a limit or of few digits.
pub fn place(random: &mut Random) -> u32 {
    match random.below(4) {
        0 => random.pick(&[0, 1, 9, 10, 99, 100, 999, 1000, 1023, 1024, 9999, 10_000]),
        1 => GREATEST_PLACE - random.below(50) as u32,
        2 => random.below(1100) as u32,
        _ => random.between(0, GREATEST_PLACE as usize) as u32,
    }
}

/// A lead up to 960, often at a limit.
pub fn lead(random: &mut Random) -> u32 {
    match random.below(3) {
        0 => random.pick(&[0, 1, 2, 9, 10, 64, 99, 100, 959, GREATEST_LEAD]),
        _ => random.between(0, GREATEST_LEAD as usize) as u32,
    }
}

fn sentence(random: &mut Random) -> Vec<u8> {
    let (place, lead) = (place(random), lead(random));
    row(random).sentence(place, lead)
}

/// A byte that a sentence may have, or any.
fn byte(random: &mut Random) -> u8 {
    match random.below(3) {
        0 => b'0' + random.below(10) as u8,
        1 => printable(random),
        _ => random.number() as u8,
    }
}

fn printable(random: &mut Random) -> u8 {
    random.between(b' '.into(), b'~'.into()) as u8
}

fn changed(random: &mut Random) -> Vec<u8> {
    let mut bytes = sentence(random);
    let place = random.below(bytes.len());
    bytes[place] = byte(random);
    bytes
}

fn dropped(random: &mut Random) -> Vec<u8> {
    let mut bytes = sentence(random);
    bytes.remove(random.below(bytes.len()));
    bytes
}

fn inserted(random: &mut Random) -> Vec<u8> {
    let mut bytes = sentence(random);
    bytes.insert(random.between(0, bytes.len()), byte(random));
    bytes
}

fn doubled(random: &mut Random) -> Vec<u8> {
    let mut bytes = sentence(random);
    let place = random.below(bytes.len());
    bytes.insert(place, bytes[place]);
    bytes
}

fn cut(random: &mut Random) -> Vec<u8> {
    let mut bytes = sentence(random);
    bytes.truncate(random.below(bytes.len()));
    bytes
}

/// A sentence with up to three bytes behind it, often those that end a line or a string.
fn followed(random: &mut Random) -> Vec<u8> {
    let mut bytes = sentence(random);
    for _ in 0..random.between(1, 3) {
        let any = byte(random);
        bytes.push(random.pick(&[b'\n', b'\r', 0, b' ', b'.', any]));
    }
    bytes
}

/// The beginning of a sentence and the end of another, each up to the whole.
fn joined(random: &mut Random) -> Vec<u8> {
    let (mut bytes, other) = (sentence(random), sentence(random));
    bytes.truncate(random.between(0, bytes.len()));
    bytes.extend(&other[random.between(0, other.len())..]);
    bytes
}

/// The words of a row behind the number of another, or behind one that the list does not have.
fn renumbered(random: &mut Random) -> Vec<u8> {
    let bytes = sentence(random);
    let colon = bytes.iter().position(|&byte| byte == b':');
    let number = match random.below(3) {
        0 => digits(random),
        1 => random.below(300).to_string(),
        _ => row(random).number.to_string(),
    };
    let words = &bytes[colon.expect("a colon behind the number")..];
    [b"Refusal ", number.as_bytes(), words].concat()
}

/// A row with digits at its marks that may be too many, too large, or begin with zeros.
fn with_digits(random: &mut Random) -> Vec<u8> {
    let words = row(random).words.replace('#', &digits(random));
    words.replace('%', &digits(random)).into_bytes()
}

/// No digit, up to seven of any kind, a number about as large as the greatest place or lead, or a place with zeros in front.
fn digits(random: &mut Random) -> String {
    let near = |random: &mut Random, greatest: u32| {
        let number = greatest as usize - 20 + random.below(40);
        number.to_string()
    };
    match random.below(5) {
        0 => near(random, GREATEST_PLACE),
        1 => near(random, GREATEST_LEAD),
        2 => "0".repeat(random.between(1, 3)) + &place(random).to_string(),
        3 => random.below(100_000).to_string(),
        _ => {
            let count = random.below(8);
            (0..count).map(|_| random.below(10).to_string()).collect()
        }
    }
}

fn ascii(random: &mut Random) -> Vec<u8> {
    let length = random.below(LONGEST);
    (0..length).map(|_| printable(random)).collect()
}

fn noise(random: &mut Random) -> Vec<u8> {
    let length = random.below(LONGEST);
    (0..length).map(|_| random.number() as u8).collect()
}
