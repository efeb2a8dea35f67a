//! How often a start is accepted at which no block was sent, as two tables in Markdown: of many starts in random tones, and of as many
//! that lie up to 63 tones before a clean block, those at which a block is accepted, for each mode and set lead.

use olivia_tests::library;
use olivia_tests::paper::{block_tones, LONGEST_RUN, SYMBOLS};
use olivia_tests::random::Random;

const SEED: u64 = 1;
const STARTS: usize = 1_000_000;
const MODES: [u32; 3] = [1, 5, 8];
const LEADS: [u32; 4] = [4, 16, 24, 32];

/// Makes tones of which every start is one at which no block was sent.
type Draw = fn(&mut Random, u32) -> Vec<u16>;

fn main() {
    print_table("in random tones", noise);
    println!();
    print_table("up to 63 tones before a clean block", slid);
}

fn print_table(which: &str, draw: Draw) {
    println!("Of {STARTS} starts {which}, those accepted at set lead m:\n");
    println!(
        "| mode | {} |",
        LEADS.map(|m| format!("m = {m}")).join(" | ")
    );
    println!("|---|{}", "---|".repeat(LEADS.len()));
    for mode in MODES {
        let counts = accepted(mode, draw).map(|count| count.to_string());
        println!("| {mode} | {} |", counts.join(" | "));
    }
}

/// The starts accepted at each set lead.
fn accepted(mode: u32, draw: Draw) -> [usize; LEADS.len()] {
    let mut random = Random::new(SEED);
    let mut counts = [0; LEADS.len()];
    let mut left = STARTS;
    while left > 0 {
        let run = draw(&mut random, mode);
        let starts = run.windows(SYMBOLS).take(left);
        left -= starts.len();
        for tones in starts {
            let lead = least_lead(mode, tones);
            for (count, set_lead) in counts.iter_mut().zip(LEADS) {
                *count += usize::from(lead >= set_lead);
            }
        }
    }
    counts
}

fn noise(random: &mut Random, mode: u32) -> Vec<u16> {
    random_tones(random, mode, LONGEST_RUN)
}

/// A block of random codes behind 63 random tones, without its last tone.
fn slid(random: &mut Random, mode: u32) -> Vec<u16> {
    let before = random_tones(random, mode, SYMBOLS - 1);
    let text: Vec<u8> = (0..mode).map(|_| random.code()).collect();
    let block = block_tones(mode as usize, &text);
    [&before, &block[..SYMBOLS - 1]].concat()
}

fn random_tones(random: &mut Random, mode: u32, count: usize) -> Vec<u16> {
    let tone = |_| random.below(1 << mode) as u16;
    (0..count).map(tone).collect()
}

/// The least lead of the block's characters, up to which it is accepted. The records of all are told, also with refusal 10.
fn least_lead(mode: u32, tones: &[u16]) -> u32 {
    let block = library::decode_block(mode, 64, tones, &mut [0; 8]);
    assert!([0, 10].contains(&block.answer.number));
    let records = block.characters[..mode as usize].iter();
    records
        .map(|record| record.lead)
        .min()
        .expect("a character")
}
