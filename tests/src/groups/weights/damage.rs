//! D, as a trial tells it: of blocks, of tones past those sent or past the weights, and of weights above 15. The text is code 0 at
//! mode 1, unless it cannot be sent.

use super::super::damage::even_turned;
use super::super::expect_equal;
use super::Case;
use olivia_tests::library;
use olivia_tests::paper::{self, MISSING, SYMBOLS};

/// 15 times this is the largest number of 32 bits.
const MOST_TOLD: usize = u32::MAX as usize / 15;

pub const CASES: [Case; 12] = [
    ("right, at every weight", || {
        for weight in 0..=15 {
            let wanted = 64 * (15 - u32::from(weight));
            expect_damage(&sent(), &[weight; SYMBOLS], wanted)?;
        }
        Ok(())
    }),
    ("missing, at every weight", || {
        for weight in 0..=15 {
            expect_damage(&[MISSING; SYMBOLS], &[weight; SYMBOLS], 960)?;
        }
        Ok(())
    }),
    ("replaced, at every weight, also by tone 65534", || {
        for weight in 0..=15 {
            let wanted = 64 * (15 + u32::from(weight));
            expect_damage(&all_turned(), &[weight; SYMBOLS], wanted)?;
            expect_damage(&[65_534; SYMBOLS], &[weight; SYMBOLS], wanted)?;
        }
        Ok(())
    }),
    ("15 replaced and 10 missing at weight 15", || {
        let mut tones = even_turned(sent(), 15);
        tones[40..50].fill(MISSING);
        expect_damage(&tones, &[15; SYMBOLS], 15 * 30 + 10 * 15)
    }),
    ("a right tone above weight 15", || {
        for weight in [16, 128, 255] {
            expect_damage(&sent(), &[weight; SYMBOLS], 0)?;
        }
        Ok(())
    }),
    ("a missing tone above weight 15", || {
        expect_damage(&[MISSING; SYMBOLS], &[255; SYMBOLS], 960)
    }),
    ("a replaced tone above weight 15", || {
        expect_damage(&all_turned(), &[16; SYMBOLS], 64 * 31)?;
        expect_damage(&all_turned(), &[255; SYMBOLS], 64 * 270)
    }),
    ("tones past the weights", || {
        expect_damage(&sent(), &[], 960)?;
        expect_damage(&all_turned(), &[], 960)?;
        expect_damage(&sent(), &[15; 63], 15)?;
        expect_damage(&all_turned(), &[15; 63], 63 * 30 + 15)
    }),
    ("tones past those sent", || {
        let more = [sent(), vec![1, 65_534, MISSING]].concat();
        expect_damage(&more, &[15; 67], 15)?;
        expect_damage(&more, &[5; 67], 64 * 10 + 10 + 10 + 15)?;
        expect_damage(&more, &[15; 64], 45)
    }),
    ("fewer tones, and none", || {
        expect_damage(&sent()[..10], &[5; SYMBOLS], 100)?;
        expect_damage(&[], &[5; SYMBOLS], 0)
    }),
    ("a text that is not sent", || {
        let tones = [0, 1, 65_534, MISSING];
        for text in [&[128][..], &[0, 0], &[]] {
            expect_damage_of(text, &tones, &[0, 5, 15, 15], 15 + 10 + 15)?;
        }
        Ok(())
    }),
    ("the greatest D that is told", || {
        let tones = vec![0; MOST_TOLD + 1];
        expect_damage_of(&[128], &tones[..MOST_TOLD - 1], &[], u32::MAX - 15)?;
        expect_damage_of(&[128], &tones, &[], u32::MAX)
    }),
];

fn sent() -> Vec<u16> {
    paper::block_tones(1, &[0])
}

fn all_turned() -> Vec<u16> {
    sent().iter().map(|tone| tone ^ 1).collect()
}

fn expect_damage(heard: &[u16], weights: &[u8], wanted: u32) -> Result<(), String> {
    expect_damage_of(&[0], heard, weights, wanted)
}

fn expect_damage_of(text: &[u8], heard: &[u16], weights: &[u8], wanted: u32) -> Result<(), String> {
    let rooms = [SYMBOLS, 1, 1];
    let said = paper::weighted_trial(1, 1, text, heard, weights, rooms);
    let told = u32::try_from(said.damage).unwrap_or(u32::MAX);
    expect_equal("D, by the paper", wanted, told)?;
    let (mut tones, mut first, mut second) = ([0; SYMBOLS], [0; 1], [0; 1]);
    let given = library::weighted_trial_run(
        1,
        1,
        text,
        heard,
        weights,
        &mut tones,
        [&mut first, &mut second],
    );
    expect_equal("D", wanted, given.damage)
}
