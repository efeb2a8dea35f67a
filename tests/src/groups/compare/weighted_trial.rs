//! Trials with weights: a block sent, heard as it was sent, and heard damaged.

use super::super::lent::Lent;
use super::super::weighing::Weighed;
use super::super::{answer_of, expect_equal, written};
use super::block::codes_to_send;
use super::draw::{self, Wrong};
use super::weighted::{heard, least_lead};
use super::Met;
use olivia_tests::library;
use olivia_tests::paper;
use olivia_tests::random::Random;

#[derive(Debug)]
pub struct Trial {
    mode: u32,
    least_lead: u32,
    text: Vec<u8>,
    heard: Weighed,
    /// Of the tones, the first text and the second.
    rooms: [usize; 3],
}

impl super::Case for Trial {
    const FUNCTION: &'static str = "weighted_trial_run";
    const REFUSALS: &'static [u32] = &[1, 2, 5, 6, 7, 8, 9, 10, 14];

    fn draw(random: &mut Random) -> Self {
        let (sending, hearing) = (Wrong::draw(random), Wrong::draw(random));
        let weighing = Wrong::draw(random);
        let b = random.between(1, 8);
        let first_short = random.one_in(8);
        let least_lead = least_lead(random, hearing.lead);
        let text = codes_to_send(random, b, &sending);
        let sent = draw::codes_that_can_be_sent(&text, b);
        Trial {
            mode: draw::mode(random, b, sending.mode && hearing.mode),
            least_lead,
            text,
            heard: heard(random, b, &sent, least_lead, &hearing, &weighing),
            rooms: [
                draw::room(random, paper::SYMBOLS, sending.room),
                draw::room(random, b, first_short),
                draw::room(random, b, hearing.room),
            ],
        }
    }

    fn mode(&self) -> u32 {
        self.mode
    }

    fn compare(&self) -> Result<Met, String> {
        let mut text = Lent::input(&self.text);
        let mut heard = Lent::input(&self.heard.tones);
        let mut weights = Lent::input(&self.heard.weights);
        let mut tones = Lent::output(self.rooms[0]);
        let mut first = Lent::output(self.rooms[1]);
        let mut second = Lent::output(self.rooms[2]);
        let given = library::weighted_trial_run(
            self.mode,
            self.least_lead,
            text.part(),
            heard.part(),
            weights.part(),
            tones.part(),
            [first.part(), second.part()],
        );
        let said = paper::weighted_trial(
            self.mode,
            self.least_lead,
            &self.text,
            &self.heard.tones,
            &self.heard.weights,
            self.rooms,
        );
        expect_equal("answer", all_answers(&said), given)?;
        tones.expect("tones", written(&said.encoded))?;
        first.expect("first text", written(&said.first))?;
        second.expect("second text", written(&said.second))?;
        text.expect("text handed in", &self.text)?;
        heard.expect("tones handed in", &self.heard.tones)?;
        weights.expect("weights handed in", &self.heard.weights)?;
        Ok(Met::numbers(&[
            given.encoded.number,
            given.first.number,
            given.second.number,
        ]))
    }
}

fn all_answers(said: &paper::WeightedTrial) -> library::WeightedTrial {
    library::WeightedTrial {
        encoded: answer_of(&said.encoded),
        first: answer_of(&said.first),
        second: answer_of(&said.second),
        damage: said.damage as u32,
    }
}
