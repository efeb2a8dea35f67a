//! States that no run of calls leaves. Whatever the bytes are, a result comes: the checks before 18 and that of the output are as
//! always, a call that is refused or sends nothing hands the same bytes back, what is sent is a text's, and no tone past the first 64 is
//! written.

use super::super::compare::draw::{self, Wrong};
use super::super::lent::Lent;
use super::super::tally::Tally;
use super::super::{answer_of, expect_equal, Report};
use super::draw::hand_in;
use super::senders::{hand_to, handed_of, send_from, HandIn, Senders};
use super::state::{COUNTS, FILLED, PLACE, TURN};
use olivia_tests::library::{Answer, Sender, Sent};
use olivia_tests::paper::{self, DEPOTS, PLACES, SYMBOLS};
use olivia_tests::random::Random;

const CALLS: usize = 100_000;

/// Runs whose states are changed, and by how many blocks each hands in more than the one before.
const RUNS: usize = 16;
const MORE: usize = 15;

const KINDS: [&str; 10] = [
    "taken",
    "refused with 1",
    "refused with 5",
    "refused with 6",
    "refused with 17",
    "refused with 18",
    "refused with 19",
    "sent",
    "none waiting",
    "refused with 9",
];

type Kinds = [bool; KINDS.len()];

pub fn run(random: &mut Random) -> Report {
    let left = states_of_runs(random)?;
    let mut tally = Tally::new(KINDS);
    for _ in 0..CALLS {
        let state = state(random, &left);
        let kinds = if random.one_in(2) {
            let wrong = Wrong::draw(random);
            let depot = random.below(DEPOTS);
            expect_handed(&state, &hand_in(random, depot, &wrong))
        } else {
            let is_short = random.one_in(8);
            expect_sent(&state, draw::room(random, SYMBOLS, is_short))
        };
        tally.add(kinds.map_err(|difference| format!("{state:?}: {difference}"))?);
    }
    tally.expect_often()?;
    Ok(tally.line("calls with a state of random or changed bytes"))
}

/// States that runs of calls left, with few and with many blocks waiting.
fn states_of_runs(random: &mut Random) -> Result<Vec<Sender>, String> {
    let mut left = vec![];
    for calls in (1..=RUNS).map(|run| run * MORE) {
        let mut senders = Senders::new()?;
        for _ in 0..calls {
            let depot = random.below(DEPOTS);
            // Some of the last are refused.
            let _ = senders.hand_in(&hand_in(random, depot, &Wrong::default()))?;
        }
        left.push(*senders.state());
    }
    Ok(left)
}

/// Any bytes, bytes all alike, numbers about as large as a run's, or a run's state with up to three bytes changed.
fn state(random: &mut Random, left: &[Sender]) -> Sender {
    match random.below(4) {
        0 => Sender {
            bytes: std::array::from_fn(|_| random.number() as u8),
        },
        1 => Sender {
            bytes: [byte(random); TURN + 1],
        },
        2 => near(random),
        _ => {
            let mut state = random.pick(left);
            for _ in 0..random.between(1, 3) {
                let place = place(random);
                state.bytes[place] = byte(random);
            }
            state
        }
    }
}

/// Each number up to a little above the greatest that it can be; the counts do not fit the places.
fn near(random: &mut Random) -> Sender {
    let most = random.pick(&[1, 2, 4, 5, 6, 10]);
    let limit = |place: usize| match place {
        TURN => DEPOTS + 3,
        FILLED => PLACES + 3,
        COUNTS.. => most,
        _ => match place % PLACE {
            0 => DEPOTS + 2,
            1 => 10,
            _ => 130,
        },
    };
    Sender {
        bytes: std::array::from_fn(|place| random.below(limit(place)) as u8),
    }
}

/// Any byte, often one at a limit.
fn byte(random: &mut Random) -> u8 {
    let any = random.number() as u8;
    random.pick(&[
        0, 1, 4, 7, 8, 9, 29, 30, 127, 128, 149, 150, 151, 255, any, any,
    ])
}

/// Where a byte is changed: half of the time in a waiting block or a place that is free, else in a count or the turn.
fn place(random: &mut Random) -> usize {
    let in_places = random.below(COUNTS);
    let counts = random.between(COUNTS, TURN);
    random.pick(&[in_places, in_places, in_places, counts, FILLED, TURN])
}

fn expect_handed(state: &Sender, handed: &HandIn) -> Result<Kinds, String> {
    let HandIn { depot, mode, codes } = handed;
    let (given, next) = hand_to(state, handed)?;
    // A new sender refuses nothing but by the checks before 18.
    let said = paper::Sender::default().hand_in(*depot, *mode, codes);
    let wanted = match given.number {
        18 | 19 if said.is_ok() => Answer {
            number: given.number,
            place: *depot,
            ..Answer::default()
        },
        _ => handed_of(&said),
    };
    expect_equal(&format!("{handed:?}"), wanted, given)?;
    if given.number > 0 {
        expect_equal("after a refusal", state, &next)?;
    }
    let mut kinds = [false; KINDS.len()];
    kinds[..7].copy_from_slice(&[0, 1, 5, 6, 17, 18, 19].map(|number| given.number == number));
    Ok(kinds)
}

fn expect_sent(state: &Sender, room: usize) -> Result<Kinds, String> {
    let mut tones = Lent::output(room);
    let (given, next) = send_from(state, tones.part())?;
    let is_short = room < SYMBOLS;
    let is_sent = !is_short && given.answer.count > 0;
    let what = format!("sent into {room} tones");
    if is_sent {
        let written = tones.part()[..SYMBOLS].to_vec();
        tones.expect("tones", &written)?;
        expect_equal(&what, answer_of(&Ok(written.clone())), given.answer)?;
        let heard = paper::decode_block(given.mode, 64, &written, SYMBOLS);
        expect_equal("tones of a text", true, heard.text.is_ok())?;
    } else {
        let mut wanted = Sent::default();
        wanted.answer.number = if is_short { 9 } else { 0 };
        expect_equal(&what, wanted, given)?;
        tones.expect("tones", &[])?;
        expect_equal("with nothing sent", state, &next)?;
    }
    let mut kinds = [false; KINDS.len()];
    kinds[7..].copy_from_slice(&[is_sent, !is_sent && !is_short, is_short]);
    Ok(kinds)
}
