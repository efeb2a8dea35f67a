//! Calls the library so many times on one input, for a tool that counts instructions: `count WORK MODE TIMES`, where WORK is one of
//! those that `usage` names. What is located is 1,000 inputs in turn; a sentence has no mode, and any does for it.

mod sentences;

use olivia_tests::library::{self, Sender};
use olivia_tests::random::Random;
use std::hint::black_box;
use std::process::ExitCode;

const LEAST_LEAD: u32 = 16;
const LONGEST_MESSAGE: usize = 1024;

/// Tones that are checked by themselves: a block's, and the most that the board delivers with the start unknown.
const SHORT_RUN: usize = 64;
const LONG_RUN: usize = 4096;

/// Random tones that are searched, as many as these or as the longest run, in which no start is accepted at this set lead.
const SEARCHED: usize = 1024;
const SEARCH_LEAD: u32 = 32;
const SEED: u64 = 1;

/// A band from 1000 to 2000 Hz, and how many frequencies are measured.
const WIDTH: u32 = 1000;
const CENTRE: u32 = 1500;
const MEASUREMENTS: usize = 1000;

/// The depot of the highest number, and the places of a sender.
const LAST_DEPOT: u32 = 29;
const PLACES: usize = 150;

fn main() -> ExitCode {
    let words: Vec<String> = std::env::args().skip(1).collect();
    let number = |place: usize| words.get(place).and_then(|word| word.parse().ok());
    let (Some(mode @ 1..=8), Some(times)) = (number(1), number(2)) else {
        return usage();
    };
    match words[0].as_str() {
        "encode" => encode(mode, times),
        "decode" => decode(mode, times),
        "weighted" => weighted(mode, times),
        "message" => message(mode, times),
        "find" => find(mode, times, SEARCHED),
        "find-long" => find(mode, times, LONG_RUN),
        "energy" => energy(mode, times),
        "weighted-energy" => weighted_energy(mode, times),
        work => return look(work, mode, times),
    }
    ExitCode::SUCCESS
}

/// The works that look at tones and decode none.
fn look(work: &str, mode: u32, times: u32) -> ExitCode {
    match work {
        "bad-first" => refused(mode, times, |_| 0),
        "bad-last" => refused(mode, times, |count| count - 1),
        "check" => check(mode, times, SHORT_RUN),
        "check-long" => check(mode, times, LONG_RUN),
        _ => return tune(work, mode, times),
    }
    ExitCode::SUCCESS
}

/// The works of a band.
fn tune(work: &str, mode: u32, times: u32) -> ExitCode {
    match work {
        "locate" => locate(mode, times, &[1000.0], 0),
        "locate-outside" => locate(mode, times, &[0.0, 2000.0], 16),
        "frequency" => frequency(mode, times),
        _ => return queue(work, mode, times),
    }
    ExitCode::SUCCESS
}

/// The works of a sender, with few blocks waiting and with many.
fn queue(work: &str, mode: u32, times: u32) -> ExitCode {
    match work {
        "hand-in" => hand_in(mode, times, &in_turn(mode, 1), 0),
        "hand-in-149" => hand_in(mode, times, &in_turn(mode, PLACES - 1), 0),
        "refused-18" => hand_in(mode, times, &filled(mode, [LAST_DEPOT; 8]), 18),
        "refused-19" => hand_in(mode, times, &in_turn(mode, PLACES), 19),
        "send" => send(mode, times, &in_turn(mode, 1), 0),
        "send-far" => send(mode, times, &filled(mode, [LAST_DEPOT]), LAST_DEPOT),
        "send-150" => send(mode, times, &in_turn(mode, PLACES), 0),
        "send-late" => send(mode, times, &late(mode), 0),
        "copy" => copy(times, &in_turn(mode, PLACES)),
        _ => return sentences::run(work, times),
    }
    ExitCode::SUCCESS
}

fn usage() -> ExitCode {
    eprintln!(
        "usage: count encode|decode|weighted|message|find|find-long|energy|weighted-energy|locate|\
         locate-outside|frequency|bad-first|bad-last|check|check-long|hand-in|hand-in-149|\
         refused-18|refused-19|send|send-far|send-150|send-late|copy|write-1|write-10|write-20|\
         read-1|read-10|read-20|read-noise MODE TIMES"
    );
    ExitCode::FAILURE
}

/// Codes from 1 to 127, so that they do as a block and as a message.
fn letters(count: usize) -> Vec<u8> {
    (0..count)
        .map(|place| 1 + (place * 41 % 127) as u8)
        .collect()
}

fn encode(mode: u32, times: u32) {
    let codes = letters(mode as usize);
    let mut tones = [0; 64];
    for _ in 0..times {
        let answer = library::encode_block(mode, black_box(&codes), &mut tones);
        assert_eq!(black_box(answer).number, 0);
    }
}

/// The tones of a block.
fn block_tones(mode: u32) -> [u16; 64] {
    let mut tones = [0; 64];
    let sent = library::encode_block(mode, &letters(mode as usize), &mut tones);
    assert_eq!(sent.number, 0);
    tones
}

/// Of every size.
fn weights() -> Vec<u8> {
    (0..64).map(|t| 15 - t % 16).collect()
}

fn decode(mode: u32, times: u32) {
    let tones = block_tones(mode);
    let mut codes = [0; 8];
    for _ in 0..times {
        let block = library::decode_block(mode, LEAST_LEAD, black_box(&tones), &mut codes);
        assert_eq!(black_box(block).answer.number, 0);
    }
}

fn weighted(mode: u32, times: u32) {
    let (tones, weights) = (block_tones(mode), weights());
    let mut codes = [0; 8];
    for _ in 0..times {
        let block = library::decode_weighted(
            mode,
            LEAST_LEAD,
            black_box(&tones),
            black_box(&weights),
            &mut codes,
        );
        assert_eq!(black_box(block).answer.number, 0);
    }
}

/// The tones of a message of 1,024 codes.
fn message_tones(mode: u32) -> Vec<u16> {
    let mut tones = vec![0; 64 * LONGEST_MESSAGE.div_ceil(mode as usize)];
    let sent = library::encode_message(mode, &letters(LONGEST_MESSAGE), &mut tones);
    assert_eq!(sent.number, 0);
    tones
}

fn message(mode: u32, times: u32) {
    let tones = message_tones(mode);
    let mut text = [0; LONGEST_MESSAGE + 8];
    for _ in 0..times {
        let answer = library::decode_message(mode, LEAST_LEAD, black_box(&tones), &mut text);
        assert_eq!(black_box(answer).number, 0);
    }
}

/// A search of so many random tones that goes to their end.
fn find(mode: u32, times: u32, count: usize) {
    let mut random = Random::new(SEED);
    let run: Vec<u16> = (0..count).map(|_| random.below(1 << mode) as u16).collect();
    let mut codes = [0; 8];
    for _ in 0..times {
        let found = library::find_block(mode, SEARCH_LEAD, black_box(&run), &mut codes);
        assert_eq!(black_box(found).answer.number, 13);
    }
}

fn energy(mode: u32, times: u32) {
    let tones = block_tones(mode);
    for _ in 0..times {
        let energies = library::energy(mode, black_box(&tones));
        assert_eq!(black_box(energies).total, 4096);
    }
}

/// With the squares of 0 to 15, which add up to 1,240, four times.
fn weighted_energy(mode: u32, times: u32) {
    let (tones, weights) = (block_tones(mode), weights());
    for _ in 0..times {
        let energies = library::weighted_energy(mode, black_box(&tones), black_box(&weights));
        assert_eq!(black_box(energies).total, 64 * 4 * 1240);
    }
}

/// Frequencies from one of these on, and less than the band's width above it; each is answered with this number.
fn locate(mode: u32, times: u32, from: &[f64], number: u32) {
    let mut random = Random::new(SEED);
    let mut measure = || {
        let part = random.below(1 << 30) as f64 / f64::from(1 << 30);
        random.pick(from) + f64::from(WIDTH) * part
    };
    let measured: Vec<f64> = (0..MEASUREMENTS).map(|_| measure()).collect();
    for &hertz in measured.iter().cycle().take(times as usize) {
        let located = library::locate(mode, WIDTH, CENTRE, black_box(hertz));
        assert_eq!(black_box(located).number, number);
    }
}

/// That of the mode's last tone.
fn frequency(mode: u32, times: u32) {
    let tone = (1 << mode) - 1;
    for _ in 0..times {
        let told = library::frequency(mode, WIDTH, CENTRE, black_box(tone));
        assert_eq!(black_box(told).number, 0);
    }
}

/// A new sender, to which each of these depots has handed a block.
fn filled(mode: u32, depots: impl IntoIterator<Item = u32>) -> Sender {
    let codes = letters(mode as usize);
    let mut sender = library::sender_new();
    for depot in depots {
        let answer = library::hand_in(&mut sender, depot, mode, &codes);
        assert_eq!(answer.number, 0);
    }
    sender
}

/// So many blocks, one of each depot in turn.
fn in_turn(mode: u32, count: usize) -> Sender {
    filled(mode, (0..=LAST_DEPOT).cycle().take(count))
}

/// A full sender, in which the oldest block of depot 0, the first that is looked at, stands as far back as it can: its four are the last.
fn late(mode: u32) -> Sender {
    let others = (1..=LAST_DEPOT).flat_map(|depot| [depot; 5]);
    filled(mode, [1].into_iter().chain(others).chain([0; 4]))
}

/// A block of the last depot, handed to a copy of the sender and answered with this number.
fn hand_in(mode: u32, times: u32, sender: &Sender, number: u32) {
    let codes = letters(mode as usize);
    for _ in 0..times {
        let mut copy = *black_box(sender);
        let answer = library::hand_in(&mut copy, LAST_DEPOT, mode, black_box(&codes));
        assert_eq!(black_box(answer).number, number);
        black_box(&copy);
    }
}

/// A send that serves this depot, of a copy of the sender.
fn send(mode: u32, times: u32, sender: &Sender, depot: u32) {
    let mut tones = [0; 64];
    for _ in 0..times {
        let mut copy = *black_box(sender);
        let sent = black_box(library::send(&mut copy, &mut tones));
        assert_eq!(
            (sent.answer.count, sent.depot, sent.mode),
            (64, depot, mode)
        );
        black_box(&copy);
    }
}

/// What these calls take for the copy alone.
fn copy(times: u32, sender: &Sender) {
    for _ in 0..times {
        let mut copy = *black_box(sender);
        black_box(&mut copy);
    }
}

/// The message with a bad tone, the lowest number that is none of the mode's, at the place that `place_of` makes of its length.
fn refused(mode: u32, times: u32, place_of: fn(usize) -> usize) {
    let mut tones = message_tones(mode);
    let place = place_of(tones.len());
    tones[place] = 1 << mode;
    let mut text = [0; LONGEST_MESSAGE + 8];
    for _ in 0..times {
        let answer = library::decode_message(mode, LEAST_LEAD, black_box(&tones), &mut text);
        assert_eq!(black_box(answer).number, 8);
    }
}

/// The range check by itself, of so many good tones.
fn check(mode: u32, times: u32, count: usize) {
    let mut tones = message_tones(mode);
    tones.truncate(count);
    for _ in 0..times {
        let looked = library::check_tones(mode, black_box(&tones));
        assert_eq!(black_box(looked).looked, count as u64);
    }
}
