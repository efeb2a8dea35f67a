//! Calls of the check, each with its number, its place and the count of tones looked at worked out by hand.

use super::super::{expect_equal, looked_of, Report};
use super::check;
use olivia_tests::library::Looked;
use olivia_tests::paper::{self, MISSING};

/// A tone of no mode, and no missing mark either.
const NO_TONE: u16 = 65534;

/// Every mode with the count of its tones, which is the lowest number that is none of them.
const MODES: [(u32, u16); 8] = [
    (1, 2),
    (2, 4),
    (3, 8),
    (4, 16),
    (5, 32),
    (6, 64),
    (7, 128),
    (8, 256),
];

/// Number, place, and count of tones looked at.
type Told = [u64; 3];

/// What is made of a mode and the count of its tones.
type Case = (&'static str, fn(u32, u16) -> Result<(), String>);

const IN_EVERY_MODE: [Case; 13] = [
    ("no tones", |mode, _| expect(mode, &[], [0, 0, 0])),
    ("one tone", |mode, count| {
        expect(mode, &[0], [0, 0, 1])?;
        expect(mode, &[count - 1], [0, 0, 1])?;
        expect(mode, &[MISSING], [0, 0, 1])?;
        expect(mode, &[count], [8, 0, 1])?;
        expect(mode, &[NO_TONE], [8, 0, 1])
    }),
    ("every number by itself", |mode, count| {
        for tone in 0..=MISSING {
            let is_right = tone < count || tone == MISSING;
            expect(mode, &[tone], if is_right { [0, 0, 1] } else { [8, 0, 1] })?;
        }
        Ok(())
    }),
    ("every tone of the mode", |mode, count| {
        let tones: Vec<u16> = (0..count).collect();
        expect(mode, &tones, [0, 0, count.into()])
    }),
    ("every number in its order", |mode, count| {
        let numbers: Vec<u16> = (0..=MISSING).collect();
        expect(mode, &numbers, [8, count.into(), u64::from(count) + 1])
    }),
    ("every tone missing", |mode, _| {
        expect(mode, &[MISSING; 64], [0, 0, 64])
    }),
    ("every tone bad", |mode, count| {
        expect(mode, &[count; 64], [8, 0, 1])?;
        expect(mode, &[NO_TONE; 64], [8, 0, 1])
    }),
    ("a block", |mode, count| {
        expect(mode, &in_turn(count, 64, &[]), [0, 0, 64])?;
        expect(mode, &in_turn(count, 64, &[0]), [8, 0, 1])?;
        expect(mode, &in_turn(count, 64, &[31]), [8, 31, 32])?;
        expect(mode, &in_turn(count, 64, &[63]), [8, 63, 64])
    }),
    ("two bad tones", |mode, count| {
        expect(mode, &in_turn(count, 64, &[0, 63]), [8, 0, 1])?;
        expect(mode, &in_turn(count, 64, &[5, 40]), [8, 5, 6])?;
        expect(mode, &in_turn(count, 64, &[40, 41]), [8, 40, 41])?;
        expect(mode, &in_turn(count, 64, &[62, 63]), [8, 62, 63])
    }),
    ("a bad tone among missing ones", |mode, count| {
        let mut tones = [MISSING; 64];
        tones[20] = count;
        expect(mode, &tones, [8, 20, 21])
    }),
    ("4,096 tones", |mode, count| {
        expect(mode, &in_turn(count, 4096, &[]), [0, 0, 4096])?;
        expect(mode, &in_turn(count, 4096, &[0]), [8, 0, 1])?;
        expect(mode, &in_turn(count, 4096, &[2048, 4095]), [8, 2048, 2049])?;
        expect(mode, &in_turn(count, 4096, &[4095]), [8, 4095, 4096])
    }),
    ("65,536 tones", |mode, count| {
        expect(mode, &in_turn(count, 65_536, &[]), [0, 0, 65_536])?;
        expect(
            mode,
            &in_turn(count, 65_536, &[65_535]),
            [8, 65_535, 65_536],
        )
    }),
    ("65,537 tones", |mode, count| {
        expect(mode, &in_turn(count, 65_537, &[]), [0, 0, 65_537])?;
        expect(
            mode,
            &in_turn(count, 65_537, &[65_536]),
            [8, 65_536, 65_537],
        )
    }),
];

/// Numbers that are no mode; the last four are modes in their last 5, 8 or 16 bits.
const NO_MODES: [u32; 8] = [0, 9, 16, u32::MAX, 33, 40, 257, 65_544];

/// Where there is no mode no tone is looked at, whatever the tones are.
const IN_NO_MODE: [(&str, &[u16]); 5] = [
    ("no tones", &[]),
    ("good tones", &[0, 1, 1, 0, MISSING]),
    ("the first tone bad", &[NO_TONE, 0, 0]),
    ("the last tone bad", &[0, 1, MISSING, 256]),
    ("every tone bad", &[NO_TONE; 64]),
];

pub fn run() -> Report {
    for (name, case) in IN_EVERY_MODE {
        for (mode, count) in MODES {
            case(mode, count).map_err(|difference| format!("{name}: {difference}"))?;
        }
    }
    for (name, tones) in IN_NO_MODE {
        for mode in NO_MODES {
            let met = expect(mode, tones, [1, 0, 0]);
            met.map_err(|difference| format!("{name}: {difference}"))?;
        }
    }
    let (in_modes, in_none) = (IN_EVERY_MODE.len(), IN_NO_MODE.len());
    let (modes, none) = (MODES.len(), NO_MODES.len());
    Ok(format!(
        "{} cases, {in_modes} in each of {modes} modes, {in_none} with each of {none} numbers that are no mode",
        in_modes * modes + in_none * none
    ))
}

/// So many tones, which go through those of a mode with this count and the missing mark in turn, with bad ones at these places: the
/// lowest number that is no tone of the mode, and then the highest.
fn in_turn(count: u16, length: usize, bad: &[usize]) -> Vec<u16> {
    let right = (0..count).chain([MISSING]).cycle();
    let mut tones: Vec<u16> = right.take(length).collect();
    for (&place, tone) in bad.iter().zip([count, NO_TONE]) {
        tones[place] = tone;
    }
    tones
}

/// The paper says this, and the library tells it.
fn expect(mode: u32, tones: &[u16], [number, place, looked]: Told) -> Result<(), String> {
    let wanted = Looked {
        number: number as u32,
        place,
        looked,
    };
    let what = format!("{} tones at mode {mode}", tones.len());
    let said = looked_of(&paper::check_tones(mode, tones));
    expect_equal(&format!("{what}, by the paper"), wanted, said)?;
    expect_equal(&what, wanted, check(mode, tones)?)
}
