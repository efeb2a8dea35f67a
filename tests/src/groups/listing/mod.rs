//! The listing program against the paper, to the byte: whole inputs, inputs that come in pieces, and a read and a write that fail.

mod draw;
mod program;
mod tally;

use super::{expect_equal, Report};
use olivia_tests::paper;
use olivia_tests::random::Random;
use std::path::Path;
use std::process::Output;
use std::{fs, io};
use tally::Tally;

const SEED: u64 = 4;

/// Feeds of each mode: handed over whole, in pieces, and over a connection that is reset.
const WHOLE: usize = 500;
const IN_PIECES: usize = 60;
const RESET: usize = 20;

/// Inputs of noise, handed over whole.
const NOISE: usize = 1000;

/// Bytes that a pipe holds, at least (Linux).
const PIPE: usize = 4096;

pub fn run() -> Report {
    let mut random = Random::new(SEED);
    let parts = [
        stored_cases()?,
        whole_inputs(&mut random)?,
        inputs_in_pieces(&mut random)?,
        reset_connections(&mut random)?,
        full_pipe(&mut random)?,
    ];
    Ok(parts.join("\n  "))
}

/// The paper lists every input of tests/list as the output stored beside it.
fn stored_cases() -> Result<String, String> {
    let mut cases = 0;
    let folder = Path::new(env!("CARGO_MANIFEST_DIR")).join("list");
    for entry in fs::read_dir(folder).map_err(unreadable)? {
        let path = entry.map_err(unreadable)?.path();
        if path.extension().is_some_and(|extension| extension == "in") {
            let input = fs::read(&path).map_err(unreadable)?;
            let stored = fs::read(path.with_extension("out")).map_err(unreadable)?;
            expect_text(&path.display().to_string(), &stored, &paper::listed(&input))?;
            cases += 1;
        }
    }
    Ok(format!("{cases} stored cases, by the paper"))
}

fn unreadable(error: io::Error) -> String {
    format!("tests/list: {error}")
}

fn whole_inputs(random: &mut Random) -> Result<String, String> {
    let mut tally = Tally::default();
    let feeds = (1..=8).flat_map(|b| [Some(b); WHOLE]);
    for mode in feeds.chain([None; NOISE]) {
        let input = match mode {
            Some(b) => draw::feed(random, b),
            None => draw::noise(random),
        };
        let (listing, _) = compare(&[&input])?;
        tally.add(&input, &listing);
    }
    tally.expect_often()?;
    Ok(tally.lines())
}

fn inputs_in_pieces(random: &mut Random) -> Result<String, String> {
    let (mut inputs, mut pieces) = (0, 0);
    for b in (1..=8).flat_map(|b| [b; IN_PIECES]) {
        let input = draw::feed(random, b);
        let (_, read) = compare(&draw::cut(random, &input))?;
        inputs += 1;
        pieces += read;
    }
    Ok(format!("{inputs} inputs that came in {pieces} pieces"))
}

/// Compares the listings of an input that comes in these pieces. Answers with them, and with the count of pieces that were read.
fn compare(pieces: &[&[u8]]) -> Result<(Vec<u8>, usize), String> {
    let input = pieces.concat();
    let listing = paper::listed(&input);
    let (output, read) = program::fed(pieces).map_err(not_run)?;
    expect_printed(&input, &output, &listing, "")?;
    Ok((listing, read))
}

/// What was read before a reset is listed up to the last line feed, and no END.
fn reset_connections(random: &mut Random) -> Result<String, String> {
    let (mut connections, mut lines) = (0, 0);
    for b in (1..=8).flat_map(|b| [b; RESET]) {
        let mut sent = draw::right_feed(random, b);
        if random.one_in(2) {
            sent.truncate(random.between(0, sent.len()));
        }
        let listing = paper::listed(&sent[..ended_lines(&sent)]);
        let blocks = without_last_line(&listing);
        let output = program::reset_after(&sent).map_err(not_run)?;
        expect_printed(&sent, &output, blocks, "read: Connection reset by peer\n")?;
        connections += 1;
        lines += blocks.iter().filter(|&&byte| byte == b'\n').count();
    }
    Ok(format!(
        "{connections} connections reset, with {lines} lines printed"
    ))
}

/// What fits into a pipe that nobody reads is the beginning of the listing, and no END.
fn full_pipe(random: &mut Random) -> Result<String, String> {
    let input = draw::long_feed(random);
    let listing = paper::listed(&input);
    let blocks = without_last_line(&listing);
    let output = program::into_full_pipe(&input).map_err(not_run)?;
    let printed = output.stdout.len().clamp(PIPE, blocks.len() - 1);
    let reason = "write: Resource temporarily unavailable\n";
    expect_printed(&input, &output, &blocks[..printed], reason)?;
    Ok(format!(
        "a pipe full with {printed} bytes of {}",
        listing.len()
    ))
}

/// How many bytes the lines have that end with a line feed.
fn ended_lines(text: &[u8]) -> usize {
    let last = text.iter().rposition(|&byte| byte == b'\n');
    last.map_or(0, |place| place + 1)
}

fn without_last_line(listing: &[u8]) -> &[u8] {
    &listing[..ended_lines(&listing[..listing.len() - 1])]
}

fn not_run(error: io::Error) -> String {
    format!("target/front/list: {error}")
}

/// The program printed this listing and this reason, and ended by itself.
fn expect_printed(
    input: &[u8],
    output: &Output,
    listing: &[u8],
    reason: &str,
) -> Result<(), String> {
    expect_text("standard output", listing, &output.stdout)
        .and_then(|()| expect_text("standard error", reason.as_bytes(), &output.stderr))
        .and_then(|()| expect_equal("status", Some(0), output.status.code()))
        .map_err(|difference| format!("input \"{}\": {difference}", input.escape_ascii()))
}

fn expect_text(what: &str, wanted: &[u8], given: &[u8]) -> Result<(), String> {
    let text = String::from_utf8_lossy;
    expect_equal(what, text(wanted), text(given))
}
