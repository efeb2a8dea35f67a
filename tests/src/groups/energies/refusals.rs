//! Calls that are refused, each check at its places, and in its order with each other.

use super::call::Call;
use super::Case;
use olivia_tests::paper::{tone_count, MISSING};

/// A tone of no mode, and no missing mark either.
const NO_TONE: u16 = 65534;

/// Other counts than 64.
const COUNTS: [usize; 5] = [0, 1, 63, 65, 128];

pub const REFUSED: [Case; 5] = [
    ("no mode", |b| {
        let mode = b as u32;
        for no_mode in [0, 9, 16, u32::MAX, 256 + mode, 65_536 + mode] {
            for call in Call::both(b) {
                call.with_mode(no_mode).expect_refused(1, 0)?;
            }
        }
        Ok(())
    }),
    ("another count of tones", |b| {
        for count in COUNTS {
            for call in Call::both(b) {
                call.with_tones(vec![0; count]).expect_refused(7, 0)?;
            }
        }
        Ok(())
    }),
    ("another count of weights", |b| {
        for count in COUNTS {
            let call = Call::weighted(b, 15).with_weights(vec![15; count]);
            call.expect_refused(7, 0)?;
        }
        Ok(())
    }),
    ("a bad tone, and the lowest of several", |b| {
        for tone in [tone_count(b) as u16, NO_TONE] {
            for call in Call::both(b) {
                for place in [0, 1, 40, 63] {
                    call.with_tone(place, tone).expect_refused(8, place)?;
                }
                let at_the_end = call.with_tone(63, tone);
                at_the_end.with_tone(0, tone).expect_refused(8, 0)?;
                at_the_end.with_tone(62, NO_TONE).expect_refused(8, 62)?;
            }
        }
        Ok(())
    }),
    ("a weight above 15, and the lowest of several", |b| {
        for weight in [16, 17, 128, 255] {
            let call = Call::weighted(b, 15);
            for place in [0, 1, 40, 63] {
                let bad = call.with_weight(place, weight);
                bad.expect_refused(14, place)?;
                bad.with_tone(place, MISSING).expect_refused(14, place)?;
            }
            let at_the_end = call.with_weight(63, weight);
            at_the_end.with_weight(0, weight).expect_refused(14, 0)?;
            at_the_end.with_weight(62, 16).expect_refused(14, 62)?;
        }
        Ok(())
    }),
];

/// Each breaks two limits, or all.
pub const ORDERS: [Case; 11] = [
    ("1 before 7 for the tones", |b| {
        for call in Call::both(b) {
            let call = call.with_tones(vec![0; 63]);
            call.with_mode(9).expect_refused(1, 0)?;
        }
        Ok(())
    }),
    ("1 before 7 for the weights", |b| {
        let call = Call::weighted(b, 15).with_weights(vec![15; 63]);
        call.with_mode(0).expect_refused(1, 0)
    }),
    ("1 before 8", |b| {
        for call in Call::both(b) {
            let call = call.with_tone(0, NO_TONE);
            call.with_mode(9).expect_refused(1, 0)?;
        }
        Ok(())
    }),
    ("1 before 14", |b| {
        let call = Call::weighted(b, 15).with_weight(0, 16);
        call.with_mode(9).expect_refused(1, 0)
    }),
    ("7 for the tones and for the weights", |b| {
        for (tones, weights) in [(63, 65), (65, 63), (63, 63), (0, 0), (128, 128)] {
            let call = Call::weighted(b, 15).with_weights(vec![15; weights]);
            call.with_tones(vec![0; tones]).expect_refused(7, 0)?;
        }
        Ok(())
    }),
    ("7 for the tones before 8", |b| {
        for count in [63, 65] {
            for call in Call::both(b) {
                call.with_tones(vec![NO_TONE; count]).expect_refused(7, 0)?;
            }
        }
        Ok(())
    }),
    ("7 for the tones before 14", |b| {
        for count in [63, 65] {
            let call = Call::weighted(b, 16).with_tones(vec![0; count]);
            call.expect_refused(7, 0)?;
        }
        Ok(())
    }),
    ("7 for the weights before 8", |b| {
        for count in [63, 65] {
            let call = Call::weighted(b, 15).with_weights(vec![15; count]);
            call.with_tone(5, NO_TONE).expect_refused(7, 0)?;
        }
        Ok(())
    }),
    ("7 for the weights before 14", |b| {
        for count in [63, 65] {
            let call = Call::weighted(b, 15).with_weights(vec![16; count]);
            call.expect_refused(7, 0)?;
        }
        Ok(())
    }),
    ("8 before 14, also at a lower place", |b| {
        for (tone, weight) in [(50, 3), (40, 40), (3, 50), (63, 0), (0, 63)] {
            let call = Call::weighted(b, 15).with_weight(weight, 16);
            call.with_tone(tone, NO_TONE).expect_refused(8, tone)?;
        }
        Ok(())
    }),
    ("all limits", |b| {
        let call = Call::weighted(b, 15).with_tones(vec![NO_TONE; 65]);
        let call = call.with_weights(vec![16; 65]);
        call.with_mode(9).expect_refused(1, 0)?;
        call.expect_refused(7, 0)
    }),
];
