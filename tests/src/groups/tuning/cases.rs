//! Measurements with tone and distance worked out by hand, in the bits of f64, at mode 5 and 1000 Hz: the spacing is 31.25 Hz, so
//! that a stretch reaches 15.625 Hz to both sides of its tone.

use super::super::Report;
use super::call::{Bits, Call, Told};

/// −15.625, and the two numbers after it.
const HALF_BELOW: u64 = 0xc02f_4000_0000_0000;
const NEXT: u64 = 0xc02f_3fff_ffff_ffff;
const SECOND_NEXT: u64 = 0xc02f_3fff_ffff_fffe;

/// What is measured, its bits, and what is told of it.
type Measured = (&'static str, u64, Told);

const fn heard(tone: u32, off: u64) -> Told {
    Ok((tone, Bits(off)))
}

/// From 1000 to 2000 Hz. From 1024 Hz on numbers are 2^-42 apart.
const AT_1500: [Measured; 18] = [
    ("1000", 0x408f_4000_0000_0000, heard(0, HALF_BELOW)),
    ("below 1000", 0x408f_3fff_ffff_ffff, Err(16)),
    ("1015.625", 0x408f_bd00_0000_0000, heard(0, 0)),
    ("1031.25", 0x4090_1d00_0000_0000, heard(1, HALF_BELOW)),
    (
        "below 1031.25",
        0x4090_1cff_ffff_ffff,
        heard(0, 0x402f_3fff_ffff_ff80),
    ),
    (
        "1234.567",
        0x4093_4a44_9ba5_e354,
        heard(7, 0x3fc8_9374_bc6a_8000),
    ),
    ("1500", 0x4097_7000_0000_0000, heard(16, HALF_BELOW)),
    ("1984.375", 0x409f_0180_0000_0000, heard(31, 0)),
    (
        "below 2000",
        0x409f_3fff_ffff_ffff,
        heard(31, 0x402f_3fff_ffff_ff80),
    ),
    ("2000", 0x409f_4000_0000_0000, Err(16)),
    ("0", 0, Err(16)),
    ("-0", 1 << 63, Err(16)),
    ("-1500", 0xc097_7000_0000_0000, Err(16)),
    ("2^1023", 0x7fe0_0000_0000_0000, Err(16)),
    ("the greatest", 0x7fef_ffff_ffff_ffff, Err(16)),
    ("the least", 0xffef_ffff_ffff_ffff, Err(16)),
    ("minus infinity", 0xfff0_0000_0000_0000, Err(15)),
    ("not a number", 0x7ff8_0000_0000_0000, Err(15)),
];

/// From 0 to 1000 Hz. Just above −15.625 numbers are 2^-49 apart, so that 2^-50 added to it lies in the middle of two.
const AT_500: [Measured; 20] = [
    ("0", 0, heard(0, HALF_BELOW)),
    ("-0", 1 << 63, heard(0, HALF_BELOW)),
    ("2^-1074", 1, heard(0, HALF_BELOW)),
    ("-2^-1074", 1 << 63 | 1, Err(16)),
    ("below 2^-1022", 0x000f_ffff_ffff_ffff, heard(0, HALF_BELOW)),
    ("2^-1022", 0x0010_0000_0000_0000, heard(0, HALF_BELOW)),
    ("below 2^-50", 0x3ccf_ffff_ffff_ffff, heard(0, HALF_BELOW)),
    ("2^-50", 0x3cd0_0000_0000_0000, heard(0, HALF_BELOW)),
    ("above 2^-50", 0x3cd0_0000_0000_0001, heard(0, NEXT)),
    ("2^-49", 0x3ce0_0000_0000_0000, heard(0, NEXT)),
    ("below 3 * 2^-50", 0x3ce7_ffff_ffff_ffff, heard(0, NEXT)),
    ("3 * 2^-50", 0x3ce8_0000_0000_0000, heard(0, SECOND_NEXT)),
    (
        "above 3 * 2^-50",
        0x3ce8_0000_0000_0001,
        heard(0, SECOND_NEXT),
    ),
    ("15.625", 0x402f_4000_0000_0000, heard(0, 0)),
    (
        "below 31.25",
        0x403f_3fff_ffff_ffff,
        heard(0, 0x402f_3fff_ffff_fffe),
    ),
    ("31.25", 0x403f_4000_0000_0000, heard(1, HALF_BELOW)),
    (
        "below 1000",
        0x408f_3fff_ffff_ffff,
        heard(31, 0x402f_3fff_ffff_ffc0),
    ),
    ("1000", 0x408f_4000_0000_0000, Err(16)),
    ("2^1023", 0x7fe0_0000_0000_0000, Err(16)),
    ("infinity", 0x7ff0_0000_0000_0000, Err(15)),
];

pub fn run() -> Report {
    for (centre, measured) in [(1500, &AT_1500[..]), (500, &AT_500)] {
        for &(name, hertz, wanted) in measured {
            let call = Call {
                mode: 5,
                width: 1000,
                centre,
                hertz: Bits(hertz),
            };
            let met = call.expect(wanted);
            met.map_err(|difference| format!("{name} at {centre}: {difference}"))?;
        }
    }
    let count = AT_1500.len() + AT_500.len();
    Ok(format!("{count} measurements worked out by hand"))
}
