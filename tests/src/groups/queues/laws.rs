//! What order 7 promises of any run of calls, held against what the calls told and the state that each left.

use super::super::expect_equal;
use super::senders::{Refused, Senders, Served};
use olivia_tests::paper::{DEPOTS, KEPT};

/// What the calls told so far.
#[derive(Default)]
pub struct Laws {
    taken: usize,
    sent: usize,
    /// Blocks of each depot that were taken and not sent.
    waiting: [usize; DEPOTS],
    /// Sends that each depot with a waiting block has seen since it was served, or since it has one.
    unserved: [usize; DEPOTS],
    /// Those that the depot served last had seen, the one that served it among them.
    last_wait: usize,
}

impl Laws {
    pub fn taken(&self) -> usize {
        self.taken
    }

    pub fn sent(&self) -> usize {
        self.sent
    }

    pub fn last_wait(&self) -> usize {
        self.last_wait
    }

    /// "One with under 4 waiting never meets 18 or 19."
    pub fn hand_in(&mut self, depot: u32, told: Result<(), Refused>) -> Result<(), String> {
        match told {
            Ok(()) => {
                self.taken += 1;
                self.waiting[depot as usize] += 1;
                Ok(())
            }
            Err((number @ (18 | 19), _)) => {
                let what = format!("depot {depot} met {number} with its four waiting");
                expect_equal(&what, true, self.waiting[depot as usize] >= KEPT)
            }
            Err(_) => Ok(()),
        }
    }

    /// "'None waiting' is given only if every depot has none."
    pub fn send(&mut self, told: Result<Option<Served>, Refused>) -> Result<(), String> {
        match told {
            Ok(Some((depot, _))) => self.serve(depot as usize),
            Ok(None) => expect_equal("waiting with none waiting", [0; DEPOTS], self.waiting),
            Err(_) => Ok(()),
        }
    }

    /// "A depot with a waiting block is served within 30 sends, refused ones not counted."
    fn serve(&mut self, served: usize) -> Result<(), String> {
        expect_equal("served with a block", true, self.waiting[served] > 0)?;
        for depot in (0..DEPOTS).filter(|&depot| self.waiting[depot] > 0) {
            self.unserved[depot] += 1;
        }
        self.sent += 1;
        self.waiting[served] -= 1;
        self.last_wait = std::mem::take(&mut self.unserved[served]);
        let late = self.unserved.iter().position(|&sends| sends >= 30);
        expect_equal("a depot not served within 30 sends", None, late)
    }

    /// "For any run of calls, blocks taken equal blocks sent plus blocks waiting, the first two counted from the calls." "What a depot
    /// has waiting changes only by its own accepted blocks and by sends that serve it."
    pub fn expect(&self, senders: &Senders) -> Result<(), String> {
        let waiting = std::array::from_fn(|depot| senders.count_of(depot as u32).unwrap_or(0));
        expect_equal("blocks waiting, by the calls", self.waiting, waiting)?;
        expect_equal("blocks taken", self.taken, self.sent + senders.count())
    }
}
