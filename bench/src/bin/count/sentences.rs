//! The works of a sentence: those of refusals 1, 10 and 20 at the greatest place and lead, written and read, and noise read.

use olivia_tests::library;
use olivia_tests::paper::{GREATEST_LEAD, GREATEST_PLACE};
use olivia_tests::random::Random;
use std::hint::black_box;
use std::process::ExitCode;

const SEED: u64 = 1;

/// Room for any sentence.
const LINE: usize = 128;

/// Bytes of noise.
const NOISE: usize = 64;

pub fn run(work: &str, times: u32) -> ExitCode {
    match work {
        "write-1" => write(times, 1, 0),
        "write-10" => write(times, 10, GREATEST_LEAD),
        "write-20" => write(times, 20, 0),
        "read-1" => read(times, 1, 0),
        "read-10" => read(times, 10, GREATEST_LEAD),
        "read-20" => read(times, 20, 0),
        "read-noise" => read_noise(times),
        _ => return super::usage(),
    }
    ExitCode::SUCCESS
}

fn write(times: u32, number: u32, lead: u32) {
    let mut out = [0; LINE];
    for _ in 0..times {
        let number = black_box(number);
        let answer = library::write_sentence(number, GREATEST_PLACE, lead, &mut out);
        assert_eq!(black_box(answer).number, 0);
    }
}

fn read(times: u32, number: u32, lead: u32) {
    let mut out = [0; LINE];
    let written = library::write_sentence(number, GREATEST_PLACE, lead, &mut out);
    let sentence = &out[..written.count as usize];
    for _ in 0..times {
        let read = library::read_sentence(black_box(sentence));
        assert_eq!(black_box(read).number, number);
    }
}

fn read_noise(times: u32) {
    let mut random = Random::new(SEED);
    let noise: Vec<u8> = (0..NOISE).map(|_| random.number() as u8).collect();
    for _ in 0..times {
        let read = library::read_sentence(black_box(&noise));
        assert_eq!(black_box(read).answer.number, 20);
    }
}
