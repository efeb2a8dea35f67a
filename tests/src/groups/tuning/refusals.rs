//! Calls that are refused: each limit broken in several ways, by itself and with each later one.

use super::super::Report;
use super::call::{Bits, Call};

/// The checks in their order, each with the later ones, of another argument.
const CHECKS: [(u32, &[u32]); 5] = [
    (1, &[3, 4, 15, 16]),
    (3, &[4, 15, 16]),
    (4, &[15, 16]),
    (15, &[]),
    (16, &[]),
];

/// The first two are infinite, and so outside every band too. The others are not a number, with either sign and several payloads.
const NOT_FINITE: [u64; 10] = [
    0x7ff0_0000_0000_0000,
    0xfff0_0000_0000_0000,
    0x7ff8_0000_0000_0000,
    0xfff8_0000_0000_0000,
    0x7ff0_0000_0000_0001,
    0xfff0_0000_0000_0001,
    0x7ff4_0000_0000_0000,
    0x7ff7_ffff_ffff_ffff,
    0x7fff_ffff_ffff_ffff,
    0xffff_ffff_ffff_ffff,
];

/// Below or above every band, whatever its width and centre.
const OUTSIDE: [f64; 6] = [-f64::MAX, -1e300, -1e10, 1e10, 1e300, f64::MAX];

pub fn run() -> Report {
    let (mut one, mut two) = (0, 0);
    for mode in 1..=8 {
        let right = Call {
            mode,
            width: 1000,
            centre: 1500,
            hertz: Bits::of(1500.0),
        };
        let half = 1000.0 / f64::from(2 << mode);
        right.expect(Ok((1 << (mode - 1), Bits::of(-half))))?;
        for (first, later) in CHECKS {
            for call in broken(right, first) {
                call.expect(Err(first))?;
                one += 1;
                for call in later.iter().flat_map(|&later| broken(call, later)) {
                    call.expect(Err(first))?;
                    two += 1;
                }
            }
        }
    }
    Ok(format!(
        "{one} calls with one wrong argument, {two} with two"
    ))
}

/// The call with this limit broken, in each way. Some numbers are right in their last 8 or 16 bits, or if doubled in 32.
fn broken(call: Call, check: u32) -> Vec<Call> {
    let settings = |numbers: &[u32], with: fn(Call, u32) -> Call| {
        let calls = numbers.iter().map(|&number| with(call, number));
        calls.collect()
    };
    let measured = |hertz| Call { hertz, ..call };
    match check {
        1 => settings(&[0, 9, 16, 256 + 5, 65_536 + 5, u32::MAX], |call, mode| {
            Call { mode, ..call }
        }),
        3 => settings(
            &[0, 124, 126, 2001, 65_536 + 1000, u32::MAX],
            |call, width| Call { width, ..call },
        ),
        4 => settings(
            &[
                0,
                499,
                10_001,
                65_536 + 1500,
                1 << 31,
                (1 << 31) + 1500,
                u32::MAX,
            ],
            |call, centre| Call { centre, ..call },
        ),
        15 => NOT_FINITE.map(|bits| measured(Bits(bits))).to_vec(),
        _ => OUTSIDE.map(|hertz| measured(Bits::of(hertz))).to_vec(),
    }
}
