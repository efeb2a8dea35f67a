//! A block of mode 1 with code 0 and full weights has correlation 960 with word 0 and 0 with the others.
//!
//! With the first 15 even tones turned, and these of weight w, word 0 has 735 − 15 w, the words 1 and 32 have 225 + 15 w, word 33
//! has the opposite of that, and the others have less. With 16 turned, word 0 has 720 − 16 w, and those words 240 + 16 w. For code
//! 64 all have the other sign.

use super::super::damage::{even_missing, even_turned};
use super::super::heard::{Numbers, Wanted};
use super::super::lent::Lent;
use super::Case;
use olivia_tests::library;
use olivia_tests::paper::{self, MISSING, SYMBOLS};

/// Every correlation is 0.
const NOTHING: Numbers = [0, 0, 0, 0, 1, 0];

const WHOLE: Numbers = [0, 960, 0, 960, 1, 0];

pub const CASES: [Case; 17] = [
    ("whole, at the greatest lead", || {
        Call::new(960).expect(Wanted::clear(&[WHOLE]))
    }),
    ("whole, at weight 1", || {
        let record = [0, 64, 0, 64, 1, 0];
        let call = Call::new(64).with_weights(vec![1; SYMBOLS]);
        call.expect(Wanted::clear(&[record]))?;
        call.at(65).expect(Wanted::unclear(0, &[record]))
    }),
    ("case 7 at weight 15", || {
        let record = [0, 60, 0, 510, 1, 450];
        let call = Call::new(60).turned(15, 15);
        call.expect(Wanted::clear(&[record]))?;
        call.at(61).expect(Wanted::unclear(0, &[record]))
    }),
    ("case 7, the turned tones at weight 3", || {
        let record = [0, 420, 0, 690, 1, 270];
        let call = Call::new(420).turned(15, 3);
        call.expect(Wanted::clear(&[record]))?;
        call.at(421).expect(Wanted::unclear(0, &[record]))
    }),
    ("case 7, the turned tones at weight 0", || {
        let record = [0, 510, 0, 735, 1, 225];
        let call = Call::new(510).turned(15, 0);
        call.expect(Wanted::clear(&[record]))?;
        call.at(511).expect(Wanted::unclear(0, &[record]))
    }),
    ("case 7 with code 64", || {
        let record = [64, 420, 0, -690, 1, -270];
        let call = Call::of_code(64, 420).turned(15, 3);
        call.expect(Wanted::clear(&[record]))
    }),
    ("case 8 at weight 15", || {
        let call = Call::new(1).turned(16, 15);
        call.expect(Wanted::unclear(0, &[[0, 0, 0, 480, 1, 480]]))
    }),
    ("case 8, the turned tones at weight 14", || {
        let record = [0, 32, 0, 496, 1, 464];
        let call = Call::new(32).turned(16, 14);
        call.expect(Wanted::clear(&[record]))?;
        call.at(33).expect(Wanted::unclear(0, &[record]))
    }),
    ("case 9, the missing tones at any weight", || {
        let record = [0, 30, 0, 495, 1, 465];
        for weight in [0, 1, 15] {
            let call = Call::new(30).missing(31, weight);
            call.expect(Wanted::clear(&[record]))?;
            call.at(31).expect(Wanted::unclear(0, &[record]))?;
        }
        Ok(())
    }),
    ("case 10 at weight 15", || {
        let call = Call::new(960).turned(32, 15);
        call.expect(Wanted::clear(&[[1, 960, 1, 960, 0, 0]]))
    }),
    ("case 10, the turned tones at weight 0", || {
        let call = Call::new(1).turned(32, 0);
        call.expect(Wanted::unclear(0, &[[0, 0, 0, 480, 1, 480]]))
    }),
    ("every weight 0, mode 1", || {
        let call = Call::new(1).with_weights(vec![0; SYMBOLS]);
        call.expect(Wanted::unclear(0, &[NOTHING]))
    }),
    ("every weight 0, mode 8", || {
        let call = Call::of_mode(8, &[64; 8], 1).with_weights(vec![0; SYMBOLS]);
        call.expect(Wanted::unclear(0, &[NOTHING; 8]))
    }),
    ("every tone missing", || {
        let call = Call::new(1).with_tones(vec![MISSING; SYMBOLS]);
        call.expect(Wanted::unclear(0, &[NOTHING]))
    }),
    ("three characters, two bits lost at weight 4", || {
        two_bits_lost(922).expect(Wanted::clear(&TWO_BITS_LOST))?;
        two_bits_lost(923).expect(Wanted::unclear(1, &TWO_BITS_LOST))
    }),
    ("a lead of 0, 961, or more", || {
        for least_lead in [0, 961, 65_537, u32::MAX] {
            Call::new(least_lead).expect(Wanted::refused(2, 0))?;
        }
        Ok(())
    }),
    ("a room of 0, 1 and 2", || {
        Call::new(960).with_room(0).expect(Wanted::refused(9, 0))?;
        for room in [1, 2] {
            let call = Call::new(960).with_room(room);
            call.expect(Wanted::clear(&[WHOLE]))?;
        }
        Ok(())
    }),
];

/// Each breaks two limits that are checked one after the other, or the last limit of all.
pub const ORDERS: [Case; 12] = [
    ("1 before 2", || {
        let call = Call::new(0);
        Call { mode: 9, ..call }.expect(Wanted::refused(1, 0))?;
        let call = Call::new(961);
        Call { mode: 0, ..call }.expect(Wanted::refused(1, 0))
    }),
    ("2 before 7 for the tones", || {
        let call = Call::new(961).with_tones(vec![0; 63]);
        call.expect(Wanted::refused(2, 0))
    }),
    ("2 before 7 for the weights", || {
        let call = Call::new(0).with_weights(vec![15; 63]);
        call.expect(Wanted::refused(2, 0))
    }),
    ("7 for the tones before 9", || {
        for count in [0, 1, 63, 65, 128] {
            let call = Call::new(1).with_tones(vec![0; count]).with_room(0);
            call.expect(Wanted::refused(7, 0))?;
        }
        Ok(())
    }),
    ("7 for the weights before 9", || {
        for count in [0, 1, 63, 65, 128] {
            let call = Call::new(1).with_weights(vec![15; count]).with_room(0);
            call.expect(Wanted::refused(7, 0))?;
        }
        Ok(())
    }),
    ("7 for the weights before 8 and 14", || {
        let call = Call::new(1).with_weights(vec![16; 63]).tone(5, 2);
        call.expect(Wanted::refused(7, 0))
    }),
    ("9 before 8", || {
        let call = Call::new(1).tone(5, 2).with_room(0);
        call.expect(Wanted::refused(9, 0))
    }),
    ("9 before 14", || {
        let call = Call::new(1).weight(5, 16).with_room(0);
        call.expect(Wanted::refused(9, 0))
    }),
    ("8 before 14, which has the lower place", || {
        let call = Call::new(1).tone(50, 2).weight(3, 16);
        call.expect(Wanted::refused(8, 50))?;
        let call = Call::new(1).tone(40, 2).weight(40, 255);
        call.expect(Wanted::refused(8, 40))?;
        let call = Call::new(1).tone(40, 65_534).weight(40, 0);
        call.expect(Wanted::refused(8, 40))
    }),
    ("14 before 10, at a missing tone", || {
        for (place, weight) in [(0, 16), (40, 16), (63, 255)] {
            let call = Call::new(1).with_tones(vec![MISSING; SYMBOLS]);
            let call = call.weight(place, weight);
            call.expect(Wanted::refused(14, place as u32))?;
        }
        Ok(())
    }),
    ("14 at the lowest place", || {
        let call = Call::new(960).weight(63, 255).weight(20, 16);
        call.expect(Wanted::refused(14, 20))?;
        Call::new(960)
            .weight(63, 15)
            .expect(Wanted::clear(&[WHOLE]))?;
        let call = Call::new(1).with_weights(vec![128; SYMBOLS]);
        call.expect(Wanted::refused(14, 0))
    }),
    ("all limits", || {
        let call = Call::new(0)
            .with_tones(vec![2; 65])
            .with_weights(vec![16; 65])
            .with_room(0);
        Call { mode: 9, ..call }.expect(Wanted::refused(1, 0))
    }),
];

/// What is handed to the entry.
#[derive(Clone)]
struct Call {
    mode: u32,
    least_lead: u32,
    tones: Vec<u16>,
    weights: Vec<u8>,
    room: usize,
}

impl Call {
    /// A block of mode 1 with code 0 and full weights.
    fn new(least_lead: u32) -> Self {
        Call::of_code(0, least_lead)
    }

    fn of_code(code: u8, least_lead: u32) -> Self {
        Call::of_mode(1, &[code], least_lead)
    }

    fn of_mode(mode: u32, codes: &[u8], least_lead: u32) -> Self {
        Call {
            mode,
            least_lead,
            tones: paper::block_tones(mode as usize, codes),
            weights: vec![15; SYMBOLS],
            room: 8,
        }
    }

    fn at(&self, least_lead: u32) -> Self {
        let call = self.clone();
        Call { least_lead, ..call }
    }

    fn with_tones(self, tones: Vec<u16>) -> Self {
        Call { tones, ..self }
    }

    fn with_weights(self, weights: Vec<u8>) -> Self {
        Call { weights, ..self }
    }

    fn with_room(self, room: usize) -> Self {
        Call { room, ..self }
    }

    fn tone(mut self, place: usize, tone: u16) -> Self {
        self.tones[place] = tone;
        self
    }

    fn weight(mut self, place: usize, weight: u8) -> Self {
        self.weights[place] = weight;
        self
    }

    /// The first so many even tones turned, and of this weight.
    fn turned(self, count: usize, weight: u8) -> Self {
        let tones = even_turned(self.tones.clone(), count);
        self.with_tones(tones).even_weights(count, weight)
    }

    /// The same with so many missing.
    fn missing(self, count: usize, weight: u8) -> Self {
        let tones = even_missing(self.tones.clone(), count);
        self.with_tones(tones).even_weights(count, weight)
    }

    fn even_weights(mut self, count: usize, weight: u8) -> Self {
        let weights = self.weights.iter_mut();
        weights.step_by(2).take(count).for_each(|of| *of = weight);
        self
    }

    fn expect(&self, wanted: Wanted) -> Result<(), String> {
        let (tones, weights) = (&self.tones, &self.weights);
        let said = paper::decode_weighted(self.mode, self.least_lead, tones, weights, self.room);
        let mut output = Lent::output(self.room);
        let given =
            library::decode_weighted(self.mode, self.least_lead, tones, weights, output.part());
        wanted.expect(&said, given, &output)
    }
}

/// Codes 64, 64 and 64. The first tone sent is 7, symbol 5; tone 2 is symbol 3, which differs in the bits of characters 1 and 2.
fn two_bits_lost(least_lead: u32) -> Call {
    let call = Call::of_mode(3, &[64; 3], least_lead);
    call.tone(0, 2).weight(0, 4)
}

/// A bit kept at weight 4 leaves 949 of 960, and 11 or −11 to every other word; one lost leaves 941, and 19 or −19.
const TWO_BITS_LOST: [Numbers; 3] = [
    [64, 938, 0, -949, 1, -11],
    [64, 922, 0, -941, 1, -19],
    [64, 922, 0, -941, 1, -19],
];
