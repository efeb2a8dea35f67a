//! Calls of the finder, each with its answer, its start and its records worked out by hand.
//!
//! In a clean block a character has correlation 64 or −64 with its word, and 0 with every other. With one tone missing every
//! correlation is odd, so that the best is 63 at most and the runner-up's 1 at least; with more the best is 62 at most. So at lead 64
//! no start is accepted at which a tone is missing.

use super::super::heard::{Numbers, Wanted};
use super::super::Report;
use super::call::Call;
use olivia_tests::paper::{block_tones, tone_count, LONGEST_RUN, MISSING, SYMBOLS};

/// The codes of two blocks, the mode's first ones.
const TEXT: [u8; 8] = [0, 127, 64, 63, 1, 80, 42, 101];
const OTHER: [u8; 8] = [65, 0, 62, 126, 99, 7, 64, 32];

/// A tone of no mode, and no missing mark either.
const NO_TONE: u16 = 65534;

type Case = (&'static str, fn(usize) -> Result<(), String>);

const IN_EVERY_MODE: [Case; 14] = [
    ("a block alone", |b| {
        let call = Call::new(b, block(b));
        for least_lead in [1, 2, 63, 64] {
            call.at(least_lead).expect(0, clean(&TEXT[..b]))?;
        }
        Ok(())
    }),
    ("any tone before it", |b| {
        for tone in tones_and_mark(b) {
            let call = Call::new(b, [vec![tone], block(b)].concat());
            call.expect_first(1, clean(&TEXT[..b]))?;
        }
        Ok(())
    }),
    ("any tone behind it", |b| {
        for tone in tones_and_mark(b) {
            let call = Call::new(b, [block(b), vec![tone]].concat());
            call.expect(0, clean(&TEXT[..b]))?;
        }
        Ok(())
    }),
    ("at every start of 128 tones", |b| {
        for start in 0..=SYMBOLS {
            let call = Call::new(b, among_missing(b, start, 2 * SYMBOLS));
            call.expect(start, clean(&TEXT[..b]))?;
        }
        Ok(())
    }),
    ("at the first and last starts of 4,096 tones", |b| {
        for start in [0, 1, LONGEST_RUN - SYMBOLS - 1, LONGEST_RUN - SYMBOLS] {
            let call = Call::new(b, among_missing(b, start, LONGEST_RUN));
            call.expect(start, clean(&TEXT[..b]))?;
        }
        Ok(())
    }),
    ("a run too short or too long", |b| {
        // The last is 64 in its last 16 bits.
        for length in [0, 1, 63, 4097, 8192, 65_600] {
            Call::new(b, repeated(b, length)).expect_refused(7, 0)?;
        }
        Ok(())
    }),
    ("every tone missing", |b| {
        for length in [64, 65, 128, 4096] {
            let call = Call::new(b, vec![MISSING; length]);
            call.expect_refused(13, 0)?;
            call.at(1).expect_refused(13, 0)?;
        }
        Ok(())
    }),
    ("a bad tone", |b| {
        let call = Call::new(b, repeated(b, 128));
        for tone in [tone_count(b) as u16, NO_TONE] {
            for place in [0, 1, 63, 64, 127] {
                call.with_tone(place, tone).expect_refused(8, place)?;
            }
            let at_the_end = call.with_tone(127, tone);
            at_the_end.with_tone(0, tone).expect_refused(8, 0)?;
            at_the_end.with_tone(126, tone).expect_refused(8, 126)?;
        }
        Ok(())
    }),
    ("a bad tone far behind a block", |b| {
        let call = Call::new(b, among_missing(b, 0, LONGEST_RUN));
        let bad = call.with_tone(LONGEST_RUN - 1, NO_TONE);
        bad.expect_refused(8, LONGEST_RUN - 1)
    }),
    ("a room of 0, b - 1, b and b + 3", |b| {
        let call = Call::new(b, [vec![MISSING], block(b)].concat());
        for room in [0, b - 1] {
            call.with_room(room).expect_refused(9, 0)?;
        }
        for room in [b, b + 3] {
            call.with_room(room).expect(1, clean(&TEXT[..b]))?;
        }
        Ok(())
    }),
    ("a set lead of 0, 65, or more", |b| {
        let call = Call::new(b, block(b));
        for least_lead in [0, 65, 257, 65_600, u32::MAX] {
            call.at(least_lead).expect_refused(2, 0)?;
        }
        Ok(())
    }),
    ("no mode", |b| {
        let call = Call::new(b, block(b));
        let mode = b as u32;
        for no_mode in [0, 9, 16, u32::MAX, 256 + mode, 65_536 + mode] {
            call.with_mode(no_mode).expect_refused(1, 0)?;
        }
        Ok(())
    }),
    ("two blocks, with a mark or nothing between", |b| {
        for between in [vec![MISSING], vec![]] {
            let second = SYMBOLS + between.len();
            let call = Call::new(b, [block(b), between, block_tones(b, &OTHER[..b])].concat());
            call.expect(0, clean(&TEXT[..b]))?;
            call.from(1).expect_first(second - 1, clean(&OTHER[..b]))?;
        }
        Ok(())
    }),
    ("a block without its last tone before a whole one", |b| {
        let mut run = repeated(b, 128);
        run[63] = MISSING;
        let call = Call::new(b, run);
        call.at(62).expect(0, last_missing(&TEXT[..b]))?;
        call.at(63).expect_first(64, clean(&TEXT[..b]))?;
        call.at(64).expect_first(64, clean(&TEXT[..b]))
    }),
];

/// Each breaks two limits that are checked one after the other, or several.
const ORDERS: [Case; 6] = [
    ("1 before 2", |b| {
        let call = Call::new(b, block(b));
        call.with_mode(9).at(0).expect_refused(1, 0)?;
        call.with_mode(0).at(65).expect_refused(1, 0)
    }),
    ("2 before 7", |b| {
        for length in [63, 4097] {
            let call = Call::new(b, repeated(b, length));
            call.at(0).expect_refused(2, 0)?;
            call.at(65).expect_refused(2, 0)?;
        }
        Ok(())
    }),
    ("7 before 9", |b| {
        for length in [63, 4097] {
            let call = Call::new(b, repeated(b, length));
            call.with_room(b - 1).expect_refused(7, 0)?;
        }
        Ok(())
    }),
    ("9 before 8", |b| {
        let call = Call::new(b, block(b)).with_tone(5, NO_TONE);
        call.with_room(b - 1).expect_refused(9, 0)
    }),
    ("8 before 13", |b| {
        for place in [0, 70, 127] {
            let call = Call::new(b, vec![MISSING; 128]);
            call.with_tone(place, NO_TONE).expect_refused(8, place)?;
        }
        Ok(())
    }),
    ("all limits", |b| {
        let call = Call::new(b, vec![NO_TONE; 63]).with_room(0).at(0);
        call.with_mode(9).expect_refused(1, 0)?;
        call.expect_refused(2, 0)?;
        call.at(1).expect_refused(7, 0)
    }),
];

/// Clean blocks of one code throughout, each with a tone before it and the records of the clear block one start earlier: found by
/// trying every code and tone.
const EARLIER: [(u8, u16, &[Numbers]); 2] = [
    (20, 0, &[[62, 8, 62, 22, 4, -14]]),
    (
        4,
        16,
        &[
            [13, 8, 13, 24, 8, -16],
            [10, 4, 10, 22, 62, 18],
            [91, 4, 27, -20, 44, 16],
            [15, 8, 15, 26, 19, 18],
            [108, 4, 44, -20, 11, -16],
        ],
    ),
];

pub fn run() -> Report {
    let cases = [&IN_EVERY_MODE[..], &ORDERS].concat();
    for (name, case) in &cases {
        for b in 1..=8 {
            case(b).map_err(|difference| format!("{name}, mode {b}: {difference}"))?;
        }
    }
    for (code, tone, earlier) in EARLIER {
        let met = expect_earlier(code, tone, earlier);
        met.map_err(|difference| format!("one start earlier, code {code}: {difference}"))?;
    }
    Ok(format!(
        "{} cases, {} in each of 8 modes",
        8 * cases.len() + EARLIER.len(),
        cases.len()
    ))
}

/// The earlier block is found up to its least lead, and the clean one above that.
fn expect_earlier(code: u8, tone: u16, earlier: &[Numbers]) -> Result<(), String> {
    let sent = vec![code; earlier.len()];
    let run = [vec![tone], block_tones(sent.len(), &sent)].concat();
    let call = Call::new(sent.len(), run);
    let leads = earlier.iter().map(|record| record[1] as u32);
    let lead = leads.min().expect("a character");
    call.at(lead).expect(0, Wanted::clear(earlier))?;
    call.at(lead + 1).expect_first(1, clean(&sent))
}

fn block(b: usize) -> Vec<u16> {
    block_tones(b, &TEXT[..b])
}

fn tones_and_mark(b: usize) -> impl Iterator<Item = u16> {
    (0..tone_count(b) as u16).chain([MISSING])
}

/// The block, over and over.
fn repeated(b: usize, length: usize) -> Vec<u16> {
    block(b).into_iter().cycle().take(length).collect()
}

/// The block at this start, and missing tones on both sides.
fn among_missing(b: usize, start: usize, length: usize) -> Vec<u16> {
    let mut run = vec![MISSING; length];
    run[start..start + SYMBOLS].copy_from_slice(&block(b));
    run
}

fn clean(codes: &[u8]) -> Wanted {
    Wanted::clear(&records(codes, 64, 0))
}

/// Every word has a plus at the last place. Without it a code below 64 keeps 63 of 64, and −1 with every other word.
fn last_missing(codes: &[u8]) -> Wanted {
    Wanted::clear(&records(codes, 63, -1))
}

/// The records of characters whose correlation with their own word and with every other is this for a code below 64, and the opposite
/// from 64 up.
fn records(codes: &[u8], own: i32, other: i32) -> Vec<Numbers> {
    let record = |&code: &u8| {
        let (word, sign) = match i32::from(code) {
            code @ 0..64 => (code, 1),
            code => (code - 64, -1),
        };
        let lowest_other = i32::from(word == 0);
        let lead = own - other.abs();
        [
            code.into(),
            lead,
            word,
            sign * own,
            lowest_other,
            sign * other,
        ]
    };
    codes.iter().map(record).collect()
}
