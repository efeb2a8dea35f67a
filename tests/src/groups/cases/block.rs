//! Document 01's bench sheet, cases 1 to 11, and blocks that break several limits at once.

use super::super::damage::{even_missing, even_turned};
use super::{answered, blocks, kept_from, marked, NO_TONE};
use olivia_tests::library::{self, Answer, Character};
use olivia_tests::paper::MISSING;

/// Cells of an output of tones, of which a call is lent the first `room`.
const TONES: usize = 66;

/// Cells of an output of codes, lent likewise.
const CODES: usize = 10;

pub fn lines() -> Vec<String> {
    [
        sheet_sent(),
        sheet_heard(),
        encode_limits(),
        decode_limits(),
        single_tones(),
        eight_codes(),
        trials(),
    ]
    .concat()
}

fn sheet_sent() -> Vec<String> {
    let cases: [(&str, u32, &[u8], usize); 6] = [
        ("1", 1, &[0], 8),
        ("2", 1, &[64], 8),
        ("3", 1, &[1], 8),
        ("4", 2, &[0, 0], 6),
        // Bit q of the first symbol is character q's, and the key's bits there are 0, 1, 0.
        ("5a", 3, &[0, 0, 0], 1),
        ("5b", 3, &[1, 0, 1], 1),
    ];
    cases
        .map(|(name, mode, codes, shown)| encode(name, mode, codes, TONES, shown))
        .into()
}

fn sheet_heard() -> Vec<String> {
    let cases = [
        // Tone 4 heard for tone 3 costs characters 0 and 2 a bit each.
        ("5c", 3, 60, changed([0, 0, 0], &[(0, 4)])),
        ("6", 1, 64, turned(0)),
        ("7a", 1, 4, turned(15)),
        ("7b", 1, 5, turned(15)),
        ("8", 1, 1, turned(16)),
        ("9a", 1, 2, missing(31)),
        ("9b", 1, 1, missing(32)),
        ("10", 1, 64, turned(32)),
        ("11", 1, 1, vec![MISSING; 64]),
    ];
    cases
        .map(|(name, mode, least_lead, tones)| decode(name, mode, least_lead, &tones, CODES))
        .into()
}

/// Each breaks its own limit and, where it can, those checked later; the last two break none.
fn encode_limits() -> Vec<String> {
    let cases: [(&str, u32, &[u8], usize); 11] = [
        ("encode mode 0", 0, &[128], 63),
        ("encode mode 9", 9, &[128], 63),
        ("encode mode 4294967295", u32::MAX, &[128], 63),
        ("encode 2 codes", 3, &[128, 0], 63),
        ("encode 4 codes", 3, &[128, 0, 0, 0], 63),
        ("encode room 63", 3, &[128, 0, 0], 63),
        ("encode room 0", 3, &[128, 0, 0], 0),
        ("encode codes 128", 4, &[5, 128, 0, 128], 64),
        ("encode code 255", 4, &[127, 64, 63, 255], 64),
        ("encode room 64", 3, &[127, 64, 0], 64),
        ("encode room 66", 3, &[127, 64, 0], 66),
    ];
    cases
        .map(|(name, mode, codes, room)| encode(name, mode, codes, room, 64))
        .into()
}

/// Likewise, with so many tones of no mode.
fn decode_limits() -> Vec<String> {
    let cases = [
        ("decode mode 0", 0, 0, 63, 0),
        ("decode mode 9", 9, 0, 63, 0),
        ("decode mode 4294967295", u32::MAX, 0, 63, 0),
        ("decode lead 0", 3, 0, 63, 2),
        ("decode lead 65", 3, 65, 63, 2),
        ("decode lead 4294967295", 3, u32::MAX, 63, 2),
        ("decode 0 tones", 3, 64, 0, 2),
        ("decode 63 tones", 3, 64, 63, 2),
        ("decode 65 tones", 3, 64, 65, 2),
        ("decode room 2", 3, 64, 64, 2),
    ];
    cases
        .map(|(name, mode, least_lead, count, room)| {
            decode(name, mode, least_lead, &vec![NO_TONE; count], room)
        })
        .into()
}

fn single_tones() -> Vec<String> {
    // A missing mark is no bad tone, but makes every character unclear at a set lead of 64.
    let changes = [(2, MISSING), (63, NO_TONE), (40, 8), (0, 256)];
    let with_first = |count: usize| changed([127, 64, 0], &changes[..count]);
    // The first tone sent is 3, symbol 2. Tone 6 is symbol 4: characters 1 and 2 lose a bit each.
    let unclear = changed([0, 0, 0], &[(0, 6)]);
    let cases = [
        ("decode tone 65534", 3, 64, with_first(2), 3),
        ("decode tone 8", 3, 64, with_first(3), 3),
        ("decode tone 256", 8, 64, with_first(4), 10),
        ("decode lead 61", 3, 61, unclear.clone(), 3),
        ("decode lead 60", 3, 60, unclear, 3),
        ("decode lead 63", 3, 63, with_first(1), 3),
        ("decode lead 62", 3, 62, with_first(1), 10),
    ];
    cases
        .map(|(name, mode, least_lead, tones, room)| decode(name, mode, least_lead, &tones, room))
        .into()
}

fn eight_codes() -> Vec<String> {
    let codes = [0, 1, 63, 64, 65, 126, 127, 72];
    let mut lines = vec![encode("encode mode 8", 8, &codes, 64, 64)];
    let tones = blocks(8, &codes);
    for room in [7, 8, 10] {
        lines.push(decode(&format!("decode room {room}"), 8, 64, &tones, room));
    }
    lines
}

/// Cases 7 to 10 as trials of demand 3; a code that is refused puts nothing on the air.
fn trials() -> Vec<String> {
    let cases = [
        ("trial 15 replaced", 4, 0, turned(15)),
        ("trial 16 replaced", 1, 0, turned(16)),
        ("trial 32 replaced", 64, 0, turned(32)),
        ("trial 31 missing", 2, 0, missing(31)),
        ("trial code 128", 4, 128, missing(1)),
    ];
    cases
        .map(|(name, least_lead, code, tones)| trial(name, least_lead, code, &tones))
        .into()
}

/// Case 1 with the first so many even tones turned.
fn turned(count: usize) -> Vec<u16> {
    even_turned(blocks(1, &[0]), count)
}

/// The same with so many missing.
fn missing(count: usize) -> Vec<u16> {
    even_missing(blocks(1, &[0]), count)
}

/// A block of mode 3, with other tones at some places.
fn changed(codes: [u8; 3], changes: &[(usize, u16)]) -> Vec<u16> {
    let mut tones = blocks(3, &codes);
    for &(place, tone) in changes {
        tones[place] = tone;
    }
    tones
}

fn encode(name: &str, mode: u32, codes: &[u8], room: usize, shown: usize) -> String {
    let mut tones = marked(TONES);
    let answer = library::encode_block(mode, codes, &mut tones[..room]);
    format!("{name} {}", sent(answer, &tones, shown))
}

fn decode(name: &str, mode: u32, least_lead: u32, tones: &[u16], room: usize) -> String {
    let mut codes = marked(CODES);
    let block = library::decode_block(mode, least_lead, tones, &mut codes[..room]);
    format!("{name} {}", heard(block.answer, &block.characters, &codes))
}

/// The three calls of a trial on one line, with r and u.
fn trial(name: &str, least_lead: u32, code: u8, tones_heard: &[u16]) -> String {
    let mut tones = marked(TONES);
    let mut first = marked(CODES);
    let mut second = marked(CODES);
    let trial = library::trial_run(
        1,
        least_lead,
        &[code],
        tones_heard,
        &mut tones,
        &mut first,
        &mut second,
    );
    // The library hands out no records of a trial.
    let records =
        |tones: &[u16]| library::decode_block(1, least_lead, tones, &mut [0; CODES]).characters;
    let first_records = records(&tones[..kept_from(&tones)]);
    format!(
        "{name} {}, first {}, second {}, replaced {} missing {}",
        sent(trial.encoded, &tones, 8),
        heard(trial.first, &first_records, &first),
        heard(trial.second, &records(tones_heard), &second),
        trial.replaced,
        trial.missing
    )
}

fn sent(answer: Answer, tones: &[u16], shown: usize) -> String {
    let first: String = tones[..shown]
        .iter()
        .map(|tone| format!(" {tone}"))
        .collect();
    answered(answer, &format!(" tones{first}"), "", tones)
}

/// An answer with each code that was written and its record, or with the record of the unclear character.
fn heard(answer: Answer, records: &[Character; 8], codes: &[u8]) -> String {
    let written: String = codes
        .iter()
        .zip(records)
        .take(answer.count as usize)
        .map(|(&code, record)| shown(code.into(), record))
        .collect();
    let unclear = match answer.number {
        10 => {
            let record = &records[answer.place as usize];
            shown(record.code, record)
        }
        _ => String::new(),
    };
    answered(answer, &written, &unclear, codes)
}

fn shown(code: u32, record: &Character) -> String {
    format!(
        " code {code} lead {} word {} corr {} next {} corr {}",
        record.lead, record.word, record.correlation, record.next, record.next_correlation
    )
}
