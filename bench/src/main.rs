//! The library against document 01 written down plainly: blocks a second, for each mode, as a table in Markdown. Then, beside encoding a
//! block, handing one to a sender and sending one: nanoseconds, with few blocks waiting and with many.

use olivia_tests::library::Sender;
use olivia_tests::random::Random;
use olivia_tests::{library, paper};
use std::hint::black_box;
use std::time::{Duration, Instant};

const SEED: u64 = 1;
const LEAST_LEAD: u32 = 16;

/// Different blocks that are taken in turn, so that no branch is learnt by heart.
const BLOCKS: usize = 64;

/// Room for the codes of a message's whole blocks, in any mode.
const MESSAGE_ROOM: usize = paper::LONGEST_MESSAGE + 8;

/// Symbols replaced and missing in each block that is decoded: all its characters stay clear.
const REPLACED: usize = 4;
const MISSING: usize = 6;

/// The modes of blocks that are handed to a sender, and how many wait before one is.
const QUEUED_MODES: [usize; 3] = [1, 5, 8];
const WAITING: [usize; 2] = [0, 149];

/// Short rounds and many, the two sides in turn, so that the best of each is one in which nothing else ran.
const ROUNDS: usize = 120;
const ROUND: Duration = Duration::from_millis(2);

fn main() {
    println!("Blocks a second; the ratio is that of the library to the paper.\n");
    println!("| mode | encode | paper | ratio | decode | paper | ratio | message decode | paper | ratio |");
    println!("|---|---|---|---|---|---|---|---|---|---|");
    for b in 1..=8 {
        let work = Work::new(b);
        let cells = [work.encode(), work.decode(), work.message()].map(Rates::cells);
        println!("| {b} | {} |", cells.join(" | "));
    }
    println!("\nNanoseconds; a block handed in and one sent are to take at most 3 times those of encoding one.\n");
    println!("| mode | waiting | encode | hand-in and send | ratio |");
    println!("|---|---|---|---|---|");
    for b in QUEUED_MODES {
        let work = Work::new(b);
        for waiting in WAITING {
            let [encode, queue] = work.queue(waiting).map(|rate| 1e9 / rate);
            let ratio = queue / encode;
            println!("| {b} | {waiting} | {encode:.0} | {queue:.0} | {ratio:.2} |");
        }
    }
}

/// What is encoded and decoded in one mode.
struct Work {
    mode: u32,
    texts: Vec<Vec<u8>>,
    heard: Vec<Vec<u16>>,
    message: Vec<u16>,
}

impl Work {
    fn new(b: usize) -> Self {
        let mut random = Random::new(SEED);
        let text = |random: &mut Random| (0..b).map(|_| random.code()).collect();
        let texts: Vec<Vec<u8>> = (0..BLOCKS).map(|_| text(&mut random)).collect();
        let heard = texts
            .iter()
            .map(|text| damaged(&mut random, b, text))
            .collect();
        let letters = (0..paper::LONGEST_MESSAGE).map(|_| random.letter());
        let message = paper::encode_message(b as u32, &letters.collect::<Vec<u8>>(), usize::MAX);
        Work {
            mode: b as u32,
            texts,
            heard,
            message: message.expect("a text that can be sent"),
        }
    }

    fn encode(&self) -> Rates {
        let mut tones = [0; paper::SYMBOLS];
        let library = || self.encode_texts(&mut tones);
        let paper = || {
            for text in &self.texts {
                let tones = paper::encode_block(self.mode, black_box(text), paper::SYMBOLS);
                assert!(black_box(tones).is_ok());
            }
        };
        Rates::best(BLOCKS, library, paper)
    }

    fn encode_texts(&self, tones: &mut [u16]) {
        for text in &self.texts {
            let answer = library::encode_block(self.mode, black_box(text), tones);
            assert_eq!(black_box(answer).number, 0);
        }
    }

    /// Blocks a second that are encoded, and that are handed in and sent where so many wait: each depot hands in in its turn.
    fn queue(&self, waiting: usize) -> [f64; 2] {
        let (mut encoded, mut sent) = ([0; paper::SYMBOLS], [0; paper::SYMBOLS]);
        let mut depots = (0..paper::DEPOTS as u32).cycle();
        let mut hand_in = |sender: &mut Sender, text: &[u8]| {
            let depot = depots.next().expect("depots go round");
            let answer = library::hand_in(sender, depot, self.mode, text);
            assert_eq!(black_box(answer).number, 0);
        };
        let mut sender = library::sender_new();
        for text in self.texts.iter().cycle().take(waiting) {
            hand_in(&mut sender, text);
        }
        let encode = || self.encode_texts(&mut encoded);
        let queue = || {
            for text in &self.texts {
                hand_in(&mut sender, black_box(text));
                let answer = library::send(&mut sender, &mut sent);
                assert_eq!(black_box(answer).answer.count, 64);
            }
        };
        best(BLOCKS, encode, queue)
    }

    fn decode(&self) -> Rates {
        let mut codes = [0; 8];
        let library = || {
            for heard in &self.heard {
                let block =
                    library::decode_block(self.mode, LEAST_LEAD, black_box(heard), &mut codes);
                assert_eq!(black_box(block).answer.number, 0);
            }
        };
        let paper = || {
            for heard in &self.heard {
                let block = paper::decode_block(self.mode, LEAST_LEAD, black_box(heard), 8);
                assert!(black_box(block).text.is_ok());
            }
        };
        Rates::best(BLOCKS, library, paper)
    }

    fn message(&self) -> Rates {
        let mut text = vec![0; MESSAGE_ROOM];
        let library = || {
            let message = black_box(&self.message);
            let answer = library::decode_message(self.mode, LEAST_LEAD, message, &mut text);
            assert_eq!(black_box(answer).number, 0);
        };
        let paper = || {
            let message = black_box(&self.message);
            let text = paper::decode_message(self.mode, LEAST_LEAD, message, MESSAGE_ROOM);
            assert!(black_box(text).is_ok());
        };
        Rates::best(self.message.len() / paper::SYMBOLS, library, paper)
    }
}

/// The tones of a block with some replaced and some missing, at any places.
fn damaged(random: &mut Random, b: usize, text: &[u8]) -> Vec<u16> {
    let mut tones = paper::block_tones(b, text);
    let places = random.shuffled(paper::SYMBOLS);
    for &t in &places[..REPLACED] {
        tones[t] ^= random.between(1, paper::tone_count(b) - 1) as u16;
    }
    for &t in &places[REPLACED..REPLACED + MISSING] {
        tones[t] = paper::MISSING;
    }
    tones
}

/// Blocks a second.
struct Rates {
    library: f64,
    paper: f64,
}

impl Rates {
    fn best(blocks: usize, library: impl FnMut(), paper: impl FnMut()) -> Self {
        let [library, paper] = best(blocks, library, paper);
        Rates { library, paper }
    }

    fn cells(self) -> String {
        let ratio = self.library / self.paper;
        format!(
            "{} | {} | {ratio:.1}",
            grouped(self.library),
            grouped(self.paper)
        )
    }
}

/// Blocks a second of two sides in their best rounds, where a call of either is so many blocks.
fn best(blocks: usize, mut one: impl FnMut(), mut other: impl FnMut()) -> [f64; 2] {
    let mut best = [0.0_f64; 2];
    for _ in 0..ROUNDS {
        best[0] = best[0].max(round(blocks, &mut one));
        best[1] = best[1].max(round(blocks, &mut other));
    }
    best
}

fn round(blocks: usize, work: &mut impl FnMut()) -> f64 {
    let start = Instant::now();
    let mut calls = 0;
    while start.elapsed() < ROUND {
        work();
        calls += 1;
    }
    (calls * blocks) as f64 / start.elapsed().as_secs_f64()
}

/// A count to three figures, with a comma between thousands.
fn grouped(rate: f64) -> String {
    let unit = 10_f64.powi(rate.log10() as i32 - 2);
    let digits = format!("{:.0}", (rate / unit).round() * unit);
    let mut text = String::new();
    for (place, digit) in digits.chars().enumerate() {
        if place > 0 && (digits.len() - place) % 3 == 0 {
            text.push(',');
        }
        text.push(digit);
    }
    text
}
