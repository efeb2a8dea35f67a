//! A sender of the library and one of the paper, to which the same calls are made. After each the library has to tell and to leave what
//! the paper says, down to the order of the waiting blocks.

use super::super::lent::Lent;
use super::super::{answer_of, expect_equal};
use super::state::{self, block, blocks};
use olivia_tests::library::{self, Answer, Sender, Sent};
use olivia_tests::paper::{self, Refusal, DEPOTS, KEPT};
use std::hint::black_box;

/// What is handed in.
#[derive(Clone, Debug)]
pub struct HandIn {
    pub depot: u32,
    pub mode: u32,
    pub codes: Vec<u8>,
}

/// A refusal's number and its place.
pub type Refused = (u32, u32);

/// A depot and a mode.
pub type Served = (u32, u32);

#[derive(Clone, Debug)]
pub struct Senders {
    library: Sender,
    paper: paper::Sender,
}

impl Senders {
    pub fn new() -> Result<Self, String> {
        let senders = Senders {
            library: library::sender_new(),
            paper: paper::Sender::default(),
        };
        senders.expect_queues()?;
        Ok(senders)
    }

    /// The library's state.
    pub fn state(&self) -> &Sender {
        &self.library
    }

    /// How many blocks wait.
    pub fn count(&self) -> usize {
        state::filled(&self.library)
    }

    /// How many blocks of a depot wait, if it is one.
    pub fn count_of(&self, depot: u32) -> Option<usize> {
        let counts = state::counts(&self.library);
        counts.get(depot as usize).map(|&count| count.into())
    }

    /// The sum over all depots of the larger of 4 and its waiting blocks.
    pub fn sum(&self) -> usize {
        let counts = state::counts(&self.library).iter();
        counts.map(|&count| usize::from(count).max(KEPT)).sum()
    }

    /// Hands the block to both, and answers with what both told.
    pub fn hand_in(&mut self, handed: &HandIn) -> Result<Result<(), Refused>, String> {
        let HandIn { depot, mode, codes } = handed;
        let said = self.paper.hand_in(*depot, *mode, codes);
        let (given, next) = hand_to(&self.library, handed)?;
        expect_equal("handed in", handed_of(&said), given)?;
        match said {
            Ok(()) => expect_joined(&self.library, handed, &next)?,
            Err(_) => expect_equal("after a refusal", &self.library, &next)?,
        }
        self.library = next;
        self.expect_queues()?;
        Ok(said.map_err(refused))
    }

    /// Sends from both into an output of this length, and answers with the depot and the mode that both told, if a block waited.
    pub fn send(&mut self, room: usize) -> Result<Result<Option<Served>, Refused>, String> {
        let said = self.paper.send(room);
        let mut tones = Lent::output(room);
        let (given, next) = send_from(&self.library, tones.part())?;
        expect_equal("sent", sent_of(&said), given)?;
        match &said {
            Ok(Some(sent)) => {
                tones.expect("tones", &sent.tones)?;
                expect_left(&self.library, sent.depot, &next)?;
            }
            _ => {
                tones.expect("tones", &[])?;
                expect_equal("with nothing sent", &self.library, &next)?;
            }
        }
        self.library = next;
        self.expect_queues()?;
        let served = said.map(|sent| sent.map(|sent| (sent.depot as u32, sent.mode as u32)));
        Ok(served.map_err(refused))
    }

    /// The filled places hold the waiting blocks, those of each depot in the order of its queue; the counts are the lengths of these,
    /// and the turn is at the depot that is looked at first.
    fn expect_queues(&self) -> Result<(), String> {
        let mut queues: [_; DEPOTS] = std::array::from_fn(|depot| self.paper.queue(depot).iter());
        for given in blocks(&self.library)? {
            let queue = queues.get_mut(usize::from(given[0]));
            let next = queue.and_then(Iterator::next);
            let wanted = next.map(|block| (block.mode, &block.codes[..]));
            expect_equal(
                "a waiting block",
                wanted,
                Some((given[1].into(), &given[2..])),
            )?;
        }
        let left: usize = queues.into_iter().map(Iterator::count).sum();
        expect_equal("blocks that wait and have no place", 0, left)?;
        let lengths: [u8; DEPOTS] =
            std::array::from_fn(|depot| self.paper.queue(depot).len() as u8);
        let counts = state::counts(&self.library);
        expect_equal("blocks waiting by depot", &lengths[..], counts)?;
        let turn = self.paper.first_looked_at();
        expect_equal("turn", turn, state::turn(&self.library))
    }
}

fn refused(refusal: Refusal) -> Refused {
    (refusal.number, refusal.place as u32)
}

/// A state as it is lent: with bytes around it that no call may change.
#[repr(C)]
struct Kept {
    before: [u8; 64],
    sender: Sender,
    after: [u8; 64],
}

/// What a call gives with this state lent, and the state that it leaves.
fn lent<T>(sender: &Sender, call: impl FnOnce(&mut Sender) -> T) -> Result<(T, Sender), String> {
    let around = [0x5a; 64];
    let mut kept = Kept {
        before: around,
        sender: *sender,
        after: around,
    };
    let given = call(&mut black_box(&mut kept).sender);
    let Kept { before, after, .. } = black_box(&kept);
    expect_equal(
        "what lies around the state",
        (&around, &around),
        (before, after),
    )?;
    Ok((given, kept.sender))
}

/// What the library tells of the block handed to this state, and what it leaves. The codes handed in stay as they were.
pub fn hand_to(sender: &Sender, handed: &HandIn) -> Result<(Answer, Sender), String> {
    let mut codes = Lent::input(&handed.codes);
    let given = lent(sender, |sender| {
        library::hand_in(sender, handed.depot, handed.mode, codes.part())
    })?;
    codes.expect("codes handed in", &handed.codes)?;
    Ok(given)
}

/// What the library tells of a send from this state, and what it leaves.
pub fn send_from(sender: &Sender, tones: &mut [u16]) -> Result<(Sent, Sender), String> {
    lent(sender, |sender| library::send(sender, tones))
}

/// The library's answer to a block handed in that stands for the paper's: nothing is written.
pub fn handed_of(said: &Result<(), Refusal>) -> Answer {
    answer_of(&said.map(|()| Vec::<u16>::new()))
}

/// The library's answer to a send that stands for the paper's.
fn sent_of(said: &Result<Option<paper::Sent>, Refusal>) -> Sent {
    match said {
        Ok(Some(sent)) => Sent {
            answer: answer_of(&Ok(sent.tones.clone())),
            depot: sent.depot as u32,
            mode: sent.mode as u32,
        },
        Ok(None) => Sent::default(),
        Err(refusal) => Sent {
            answer: answer_of::<u16>(&Err(*refusal)),
            ..Sent::default()
        },
    }
}

/// The block stands behind those that waited before it.
fn expect_joined(before: &Sender, handed: &HandIn, after: &Sender) -> Result<(), String> {
    let joined = block(handed.depot, handed.mode, &handed.codes);
    let mut wanted = blocks(before)?;
    wanted.push(&joined);
    expect_equal("after a block was taken", wanted, blocks(after)?)
}

/// The depot's first block is gone, and the others stand in the order in which they stood.
fn expect_left(before: &Sender, depot: usize, after: &Sender) -> Result<(), String> {
    let mut wanted = blocks(before)?;
    let first = wanted
        .iter()
        .position(|block| usize::from(block[0]) == depot);
    wanted.remove(first.ok_or("a block was sent that did not wait")?);
    expect_equal("after a block was sent", wanted, blocks(after)?)
}
