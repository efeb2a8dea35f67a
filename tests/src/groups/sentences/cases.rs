//! Sentences written and bytes read, with what each comes to worked out by hand.

use super::super::{expect_equal, Report};
use super::call::{read, Write};
use olivia_tests::paper::Refusal;

/// Number, place, lead and room, and the sentence or the number of a refusal at place 0.
type Written = ((u32, u32, u32, usize), Result<&'static str, u32>);

const MODE: &str = "Refusal 1: the mode is not from 1 to 8 (place 0).";
const UNCLEAR: &str = "Refusal 10: the character at place 1023 is unclear: its lead is 960.";

const WRITTEN: [Written; 34] = [
    ((1, 0, 0, 49), Ok(MODE)),
    ((1, 0, 0, 48), Err(9)),
    ((1, 0, 0, 50), Ok(MODE)),
    ((1, 0, 0, 0), Err(9)),
    ((1, 10, 0, 49), Err(9)),
    (
        (1, 10, 0, 50),
        Ok("Refusal 1: the mode is not from 1 to 8 (place 10)."),
    ),
    ((10, 1023, 960, 68), Ok(UNCLEAR)),
    ((10, 1023, 960, 67), Err(9)),
    ((10, 1023, 961, 68), Err(20)),
    ((10, 1023, 961, 0), Err(20)),
    ((10, 1023, 65_536, 200), Err(20)),
    ((10, 1023, u32::MAX, 200), Err(20)),
    (
        (10, 0, 0, 63),
        Ok("Refusal 10: the character at place 0 is unclear: its lead is 0."),
    ),
    (
        (10, 65_535, 9, 200),
        Ok("Refusal 10: the character at place 65535 is unclear: its lead is 9."),
    ),
    (
        (18, 29, 0, 42),
        Ok("Refusal 18: depot 29 has 8 blocks waiting."),
    ),
    ((18, 29, 0, 41), Err(9)),
    (
        (18, 65_535, 0, 45),
        Ok("Refusal 18: depot 65535 has 8 blocks waiting."),
    ),
    ((18, 65_536, 0, 45), Err(20)),
    ((18, 65_536, 0, 0), Err(20)),
    ((18, 65_536 + 29, 0, 200), Err(20)),
    ((18, u32::MAX, 0, 200), Err(20)),
    ((8, 63, 1, 200), Err(20)),
    ((8, 63, 1, 0), Err(20)),
    ((8, 63, 960, 200), Err(20)),
    ((8, 63, 65_536, 200), Err(20)),
    (
        (20, 47, 0, 200),
        Ok("Refusal 20: this is no sentence of the list from place 47 on."),
    ),
    ((0, 0, 0, 200), Err(20)),
    ((0, 0, 0, 0), Err(20)),
    ((99, 0, 0, 200), Err(20)),
    ((100, 0, 0, 200), Err(20)),
    ((256 + 1, 0, 0, 200), Err(20)),
    ((65_536 + 10, 0, 2, 200), Err(20)),
    ((u32::MAX, u32::MAX, u32::MAX, 200), Err(20)),
    ((u32::MAX, 0, 0, 0), Err(20)),
];

const fn said(number: u32, place: usize, lead: u32) -> Result<Refusal, &'static str> {
    Ok(Refusal {
        number,
        place,
        lead,
    })
}

/// Bytes, and the refusal that they say or the beginning of them that a sentence has too, by which they are refused.
type Read = (&'static str, Result<Refusal, &'static str>);

const READ: [Read; 54] = [
    ("", Err("")),
    ("R", Err("R")),
    ("r", Err("")),
    ("Refusal ", Err("Refusal ")),
    ("Refusal 1", Err("Refusal 1")),
    ("Refusal 1:", Err("Refusal 1:")),
    ("Refusal 10", Err("Refusal 10")),
    ("Refusal 0: ", Err("Refusal ")),
    ("Refusal 01: ", Err("Refusal ")),
    ("Refusal 99: ", Err("Refusal 9")),
    ("Refusal 100: ", Err("Refusal 10")),
    ("Refusal 100", Err("Refusal 10")),
    ("Refusal  1: ", Err("Refusal ")),
    ("refusal 1: the mode is not from 1 to 8 (place 0).", Err("")),
    (" Refusal 1: the mode is not from 1 to 8 (place 0).", Err("")),
    (MODE, said(1, 0, 0)),
    (
        "Refusal 1: the mode is not from 1 to 8 (place 0)",
        Err("Refusal 1: the mode is not from 1 to 8 (place 0)"),
    ),
    (
        "Refusal 1: the mode is not from 1 to 8 (place ",
        Err("Refusal 1: the mode is not from 1 to 8 (place "),
    ),
    (
        "Refusal 1: the mode is not from 1 to 8 (place 655",
        Err("Refusal 1: the mode is not from 1 to 8 (place 655"),
    ),
    (
        "Refusal 1: the mode is not from 1 to 8 (place ).",
        Err("Refusal 1: the mode is not from 1 to 8 (place "),
    ),
    (
        "Refusal 1: the mode is not from 1 to 8 (place #).",
        Err("Refusal 1: the mode is not from 1 to 8 (place "),
    ),
    (
        "Refusal 1: the mode is not from 1 to 8 (place +1).",
        Err("Refusal 1: the mode is not from 1 to 8 (place "),
    ),
    (
        "Refusal 1: the mode is not from 1 to 8 (place 1 ).",
        Err("Refusal 1: the mode is not from 1 to 8 (place 1"),
    ),
    (
        "Refusal 1: the mode is not from 1 to 8 (place 0). ",
        Err(MODE),
    ),
    (
        "Refusal 1: the mode is not from 1 to 8 (place 0).\n",
        Err(MODE),
    ),
    (
        "Refusal 1: the mode is not from 1 to 8 (place 0).\0",
        Err(MODE),
    ),
    (
        "Refusal 1: the mode is not from 1 to 8 (place 0).Refusal 1: the mode is not from 1 to 8 (place 0).",
        Err(MODE),
    ),
    (
        "Refusal 1: the mode is not from 1 to 9 (place 0).",
        Err("Refusal 1: the mode is not from 1 to "),
    ),
    (
        "Refusal 1: the set lead is out of its range (place 0).",
        Err("Refusal 1: the "),
    ),
    (
        "Refusal 2: the set lead is out of its range (place 0).",
        said(2, 0, 0),
    ),
    (
        "Refusal 18: depot 65535 has 8 blocks waiting.",
        said(18, 65_535, 0),
    ),
    (
        "Refusal 18: depot 65536 has 8 blocks waiting.",
        Err("Refusal 18: depot 6553"),
    ),
    (
        "Refusal 18: depot 70000 has 8 blocks waiting.",
        Err("Refusal 18: depot 7000"),
    ),
    (
        "Refusal 18: depot 99999 has 8 blocks waiting.",
        Err("Refusal 18: depot 9999"),
    ),
    (
        "Refusal 18: depot 655350 has 8 blocks waiting.",
        Err("Refusal 18: depot 65535"),
    ),
    // 2^32 + 29.
    (
        "Refusal 18: depot 4294967325 has 8 blocks waiting.",
        Err("Refusal 18: depot 42949"),
    ),
    (
        "Refusal 18: depot 065 has 8 blocks waiting.",
        Err("Refusal 18: depot 0"),
    ),
    (
        "Refusal 18: depot 00 has 8 blocks waiting.",
        Err("Refusal 18: depot 0"),
    ),
    (
        "Refusal 18: depot 000029 has 8 blocks waiting.",
        Err("Refusal 18: depot 0"),
    ),
    (
        "Refusal 18: depot 29 has 9 blocks waiting.",
        Err("Refusal 18: depot 29 has "),
    ),
    (
        "Refusal 19: depot 29 has 8 blocks waiting.",
        Err("Refusal 19: "),
    ),
    (UNCLEAR, said(10, 1023, 960)),
    (
        "Refusal 10: the character at place 1023 is unclear: its lead is 960",
        Err("Refusal 10: the character at place 1023 is unclear: its lead is 960"),
    ),
    (
        "Refusal 10: the character at place 1023 is unclear: its lead is 961.",
        Err("Refusal 10: the character at place 1023 is unclear: its lead is 96"),
    ),
    (
        "Refusal 10: the character at place 1023 is unclear: its lead is 1000.",
        Err("Refusal 10: the character at place 1023 is unclear: its lead is 100"),
    ),
    (
        "Refusal 10: the character at place 1023 is unclear: its lead is 02.",
        Err("Refusal 10: the character at place 1023 is unclear: its lead is 0"),
    ),
    (
        "Refusal 10: the character at place 1023 is unclear: its lead is .",
        Err("Refusal 10: the character at place 1023 is unclear: its lead is "),
    ),
    (
        "Refusal 10: the character at place 65535 is unclear: its lead is 0.",
        said(10, 65_535, 0),
    ),
    (
        "Refusal 10: the character at place 65536 is unclear: its lead is 2.",
        Err("Refusal 10: the character at place 6553"),
    ),
    (
        "Refusal 10: the character at place 07 is unclear: its lead is 961.",
        Err("Refusal 10: the character at place 0"),
    ),
    (
        "Refusal 8: the tone at place 7 is neither one of the mode's nor an allowed missing mark.",
        said(8, 7, 0),
    ),
    (
        "Refusal 8: the tone at place 7 is unclear: its lead is 2.",
        Err("Refusal 8: the tone at place 7 is "),
    ),
    (
        "Refusal 20: this is no sentence of the list from place 0 on.",
        said(20, 0, 0),
    ),
    (
        "Refusal 20: this is no sentence of the list from place 0 on",
        Err("Refusal 20: this is no sentence of the list from place 0 on"),
    ),
];

/// What is read by hand.
pub fn inputs() -> impl Iterator<Item = Vec<u8>> {
    READ.iter().map(|(bytes, _)| bytes.as_bytes().to_vec())
}

pub fn run() -> Report {
    for ((number, place, lead, room), wanted) in WRITTEN {
        Write::new(number, place, lead, room).expect_written(wanted)?;
    }
    for (bytes, wanted) in READ {
        if let Err(beginning) = wanted {
            expect_equal("a beginning", true, bytes.starts_with(beginning))?;
        }
        let given = read(bytes.as_bytes())?;
        expect_equal(
            &format!("{bytes:?} by hand"),
            wanted.map_err(str::len),
            given,
        )?;
    }
    Ok(format!(
        "{} sentences written and {} read, worked out by hand",
        WRITTEN.len(),
        READ.len()
    ))
}
