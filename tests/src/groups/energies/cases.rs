//! Blocks with their energies worked out by hand: 64 for each tone that is not missing, times its squared weight.

use super::call::Call;
use super::Case;
use olivia_tests::paper::{tone_count, MISSING, SYMBOLS};

pub const ACCEPTED: [Case; 12] = [
    ("a clean block", |b| Call::clean(b).expect_total(4096)),
    ("a clean block at each weight", |b| {
        for weight in 0..=15 {
            let square = u32::from(weight).pow(2);
            Call::weighted(b, weight).expect_total(4096 * square)?;
        }
        Call::weighted(b, 1).expect_total(4096)?;
        Call::weighted(b, 15).expect_total(921_600)
    }),
    ("each tone throughout", |b| {
        for tone in 0..tone_count(b) as u16 {
            let tones = vec![tone; SYMBOLS];
            Call::clean(b)
                .with_tones(tones.clone())
                .expect_total(4096)?;
            let call = Call::weighted(b, 15).with_tones(tones);
            call.expect_total(921_600)?;
        }
        Ok(())
    }),
    ("a tone replaced by each other", |b| {
        for place in [0, 31, 63] {
            for tone in 0..tone_count(b) as u16 {
                Call::clean(b).with_tone(place, tone).expect_total(4096)?;
                let call = Call::weighted(b, 15).with_tone(place, tone);
                call.expect_total(921_600)?;
            }
        }
        Ok(())
    }),
    ("64 missing tones", |b| {
        let tones = vec![MISSING; SYMBOLS];
        Call::clean(b).with_tones(tones.clone()).expect_total(0)?;
        for weight in [0, 1, 15] {
            let call = Call::weighted(b, weight).with_tones(tones.clone());
            call.expect_total(0)?;
        }
        Ok(())
    }),
    ("one missing tone", |b| {
        for place in 0..SYMBOLS {
            Call::clean(b)
                .with_tone(place, MISSING)
                .expect_total(4032)?;
            let call = Call::weighted(b, 15).with_tone(place, MISSING);
            call.expect_total(907_200)?;
            call.with_weight(place, 0).expect_total(907_200)?;
        }
        Ok(())
    }),
    ("all tones but one missing", |b| {
        for (place, tone) in Call::clean(b).tones.into_iter().enumerate() {
            let tones = vec![MISSING; SYMBOLS];
            let call = Call::clean(b).with_tones(tones.clone());
            call.with_tone(place, tone).expect_total(64)?;
            let call = Call::weighted(b, 15).with_tones(tones);
            call.with_tone(place, tone).expect_total(14_400)?;
        }
        Ok(())
    }),
    ("every second tone missing", |b| {
        for first in [0, 1] {
            let tones = every_second(Call::clean(b).tones, first, MISSING);
            Call::clean(b)
                .with_tones(tones.clone())
                .expect_total(2048)?;
            Call::weighted(b, 15)
                .with_tones(tones)
                .expect_total(460_800)?;
        }
        Ok(())
    }),
    ("weights 15 and 0 in turn", |b| {
        for first in [0, 1] {
            let weights = every_second(vec![15; SYMBOLS], first, 0);
            Call::weighted(b, 15)
                .with_weights(weights)
                .expect_total(460_800)?;
        }
        Ok(())
    }),
    ("weights 15 and 1 in turn", |b| {
        // 64 times 32 times 226.
        for first in [0, 1] {
            let weights = every_second(vec![15; SYMBOLS], first, 1);
            Call::weighted(b, 15)
                .with_weights(weights)
                .expect_total(462_848)?;
        }
        Ok(())
    }),
    ("every weight 0 but one", |b| {
        for place in 0..SYMBOLS {
            let call = Call::weighted(b, 0).with_weight(place, 15);
            call.expect_total(14_400)?;
            call.with_tone(place, MISSING).expect_total(0)?;
        }
        Ok(())
    }),
    ("weights 0 to 15, four times", |b| {
        // The squares of 0 to 15 add up to 1,240.
        let weights = (0..SYMBOLS).map(|t| (t % 16) as u8).collect();
        Call::weighted(b, 15)
            .with_weights(weights)
            .expect_total(317_440)
    }),
];

/// The values with another in the place of every second one.
fn every_second<T: Copy>(mut values: Vec<T>, first: usize, other: T) -> Vec<T> {
    let seconds = values[first..].iter_mut().step_by(2);
    seconds.for_each(|value| *value = other);
    values
}
