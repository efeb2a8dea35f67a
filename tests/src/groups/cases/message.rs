//! Document 01's cases 13 and 14, messages there and back at every mode, and what is refused.

use super::{answered, blocks, kept_from, marked, NO_TONE};
use olivia_tests::library;
use olivia_tests::paper::{block_count, LONGEST_MESSAGE, MISSING, SYMBOLS};

/// A block more than the longest message has at any mode.
const TONES: usize = SYMBOLS * (LONGEST_MESSAGE + 1);

/// Some codes more than the blocks of the longest message have at any mode.
const CODES: usize = 1040;

pub fn lines() -> Vec<String> {
    let parts = [
        ("case 13", case_13()),
        ("case 14", case_14()),
        ("there and back", there_and_back()),
        ("encode refused", encode_refused()),
        ("bad codes", bad_codes()),
        ("decode refused", decode_refused()),
        ("longest messages", longest_messages()),
        ("bad tones", bad_tones()),
        ("unclear", unclear()),
        ("zeros", zeros()),
        ("too long", too_long()),
    ];
    parts
        .map(|(heading, calls)| [vec![heading.to_string()], calls].concat())
        .concat()
}

/// The last block of the text is 8 0 0.
fn case_13() -> Vec<String> {
    let mut lines = back(3, LONGEST_MESSAGE);
    lines.push(replaced(3, &[8, 9, 0]));
    lines
}

fn case_14() -> Vec<String> {
    let all_zero = |mode| decode(mode, 64, &blocks(mode, &vec![0; mode as usize]), 9);
    let mut lines: Vec<String> = (1..=8).map(all_zero).collect();
    lines.push(decode(9, 0, &[0; 64], 9));
    lines
}

fn there_and_back() -> Vec<String> {
    let counts = |b| [0, 1, b, b + 1, LONGEST_MESSAGE];
    (1..=8)
        .flat_map(|b| counts(b).map(|count| back(b as u32, count)).concat())
        .collect()
}

/// Each breaks its own limit and, where it can, those that are checked later.
fn encode_refused() -> Vec<String> {
    let cases = [
        (0, 1025, 63),
        (9, 1025, 63),
        (u32::MAX, 1025, 63),
        (3, 1025, 63),
        (1, 1024, 65535),
        (3, 4, 127),
    ];
    cases
        .map(|(mode, count, room)| encode(mode, &vec![0; count], room).0)
        .into()
}

fn bad_codes() -> Vec<String> {
    let texts = [
        [5, 0, 128, 0],
        [5, 128, 0, 128],
        [127, 64, 1, 0],
        [127, 64, 1, 255],
        [127, 64, 1, 63],
    ];
    texts.map(|text| encode(3, &text, 128).0).into()
}

/// Likewise, with so many tones of no mode.
fn decode_refused() -> Vec<String> {
    let cases = [
        (0, 0, 63, 0),
        (9, 0, 63, 0),
        (u32::MAX, 0, 63, 0),
        (3, 0, 63, 2),
        (3, 65, 63, 2),
        (3, u32::MAX, 63, 2),
        (3, 64, 63, 2),
        (3, 64, 65, 2),
    ];
    cases
        .map(|(mode, least_lead, count, room)| no_tones(mode, least_lead, count, room))
        .into()
}

/// A block too many; the most blocks, with too little room for their codes, and with enough.
fn longest_messages() -> Vec<String> {
    let of_mode = |b| {
        let most = block_count(b, LONGEST_MESSAGE);
        let cases = [
            (most + 1, b * most - 1),
            (most, b * most - 1),
            (most, b * most),
        ];
        cases.map(|(count, room)| no_tones(b as u32, 64, SYMBOLS * count, room))
    };
    (1..=8).flat_map(of_mode).collect()
}

/// Blocks 1 and 2 are unclear at a set lead of 64, which is checked later.
fn bad_tones() -> Vec<String> {
    let mut tones = damaged();
    let mut heard_with = |place: usize, tone| {
        tones[place] = tone;
        decode(3, 64, &tones, 9)
    };
    vec![heard_with(191, NO_TONE), heard_with(130, 8)]
}

fn unclear() -> Vec<String> {
    let heard = |least_lead, tones: &[u16]| decode(3, least_lead, tones, 9);
    let mut tones = damaged();
    let mut lines = vec![];
    lines.extend([63, 61, 60].map(|least_lead| heard(least_lead, &tones)));
    tones[5] = MISSING;
    lines.extend([63, 62].map(|least_lead| heard(least_lead, &tones)));
    library::encode_block(3, &[1, 2, 3], &mut tones);
    lines.push(heard(60, &tones));
    lines
}

/// A 0 before the last nonzero code, also where an all-zero block follows; as many from n on as a
/// block has, and fewer.
fn zeros() -> Vec<String> {
    let cases: [(u32, &[u8]); 7] = [
        (3, &[1, 0, 3, 4, 0, 6]),
        (3, &[1, 2, 3, 4, 0, 6]),
        (3, &[0, 2, 3, 0, 0, 0]),
        (3, &[1, 2, 3, 0, 0, 0]),
        (3, &[1, 2, 0, 0, 0, 0]),
        (3, &[1, 2, 3, 4, 0, 0]),
        (1, &[1, 0]),
    ];
    cases
        .map(|(mode, codes)| decode(mode, 64, &blocks(mode, codes), 9))
        .into()
}

/// 1,026 codes; a 0 among them, which is told first; an all-zero last block; at modes 5 and 7 every
/// code of the last block.
fn too_long() -> Vec<String> {
    let cases: [(u32, &[u8]); 5] = [
        (3, &[8, 9, 10]),
        (3, &[8, 0, 10]),
        (3, &[0, 0, 0]),
        (5, &[5, 6, 7, 8, 9]),
        (7, &[7, 8, 9, 10, 11, 12, 13]),
    ];
    cases.map(|(mode, codes)| replaced(mode, codes)).into()
}

/// The code at a place of the text that is sent.
fn code(place: usize) -> u8 {
    1 + (place % 127) as u8
}

fn text(count: usize) -> Vec<u8> {
    (0..count).map(code).collect()
}

/// The first so many codes of the text encoded, and the tones written decoded.
fn back(mode: u32, count: usize) -> Vec<String> {
    let (line, tones) = encode(mode, &text(count), TONES);
    vec![line, decode(mode, 64, &tones, CODES)]
}

/// The longest text with other codes in its last block.
fn replaced(mode: u32, codes: &[u8]) -> String {
    let mut tones = vec![0; TONES];
    library::encode_message(mode, &text(LONGEST_MESSAGE), &mut tones);
    let end = SYMBOLS * block_count(codes.len(), LONGEST_MESSAGE);
    library::encode_block(mode, codes, &mut tones[end - SYMBOLS..]);
    decode(mode, 64, &tones[..end], CODES)
}

fn no_tones(mode: u32, least_lead: u32, count: usize, room: usize) -> String {
    decode(mode, least_lead, &vec![NO_TONE; count], room)
}

/// Three blocks, with a 0 at place 1. XOR 3 turns bit 1 of the symbol and no other, so the
/// character at place 4 has lead 60; the missing tone leaves lead 62 to the characters of block 2.
fn damaged() -> Vec<u16> {
    let mut tones = blocks(3, &[1, 0, 3, 4, 5, 6, 7, 0, 0]);
    tones[64] ^= 3;
    tones[128] = MISSING;
    tones
}

/// The line of a call, and the tones written.
fn encode(mode: u32, codes: &[u8], room: usize) -> (String, Vec<u16>) {
    let mut tones = marked(room);
    let answer = library::encode_message(mode, codes, &mut tones);
    let written = &tones[..kept_from(&tones)];
    let answered = answered(answer, &format!(" sum {}", sum(written)), "", &tones);
    let line = format!(
        "encode mode {mode} codes {} room {room}: {answered}",
        codes.len()
    );
    (line, written.to_vec())
}

fn decode(mode: u32, least_lead: u32, tones: &[u16], room: usize) -> String {
    let mut codes = marked(room);
    let answer = library::decode_message(mode, least_lead, tones, &mut codes);
    let written = format!(" as sent to {}", agreed(&codes));
    let answered = answered(answer, &written, "", &codes);
    let count = tones.len();
    format!("decode mode {mode} lead {least_lead} tones {count} room {room}: {answered}")
}

/// All tones in one number, which tells their places too.
fn sum(tones: &[u16]) -> u32 {
    let added = |sum: u32, &tone: &u16| (31 * sum + u32::from(tone)) % 65521;
    tones.iter().fold(0, added)
}

/// The place up to which codes are those of the text.
fn agreed(codes: &[u8]) -> usize {
    let as_sent = |&place: &usize| codes[place] == code(place);
    (0..codes.len()).take_while(as_sent).count()
}
