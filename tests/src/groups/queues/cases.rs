//! Calls from a new sender on, with what each comes to worked out by hand.

use super::super::{expect_equal, Report};
use super::line::{block, Line};
use super::senders::{HandIn, Senders};
use olivia_tests::paper::{PLACES, SYMBOLS};

type Case = (&'static str, fn() -> Result<(), String>);

const CASES: [Case; 14] = [
    ("none waiting", || {
        let mut line = Line::new()?;
        line.expect_none()?;
        line.expect_none()?;
        line.take([5])?;
        line.expect_sent([5])?;
        line.expect_none()
    }),
    ("nine from each depot, one depot after the other", || {
        let mut line = Line::new()?;
        for depot in 0..7 {
            line.hand_in(depot, 8, &[18])?;
        }
        line.hand_in(7, 6, &[19, 19, 19])?;
        for depot in 8..30 {
            line.hand_in(depot, 4, &[19; 5])?;
        }
        line.expect_refused(0, 18)?;
        line.expect_waiting(PLACES)?;
        line.expect_rounds([(0..30, 4), (0..8, 2), (0..7, 2)])
    }),
    ("nine from each depot, in turn", || {
        let mut line = Line::new()?;
        for _ in 0..5 {
            line.take(0..30)?;
        }
        line.expect_waiting(PLACES)?;
        for depot in (0..4).flat_map(|_| 0..30) {
            line.expect_refused(depot, 19)?;
        }
        line.expect_rounds([(0..30, 5)])
    }),
    ("a place used again", || {
        let mut line = Line::new()?;
        for _ in 0..5 {
            line.take(0..30)?;
        }
        for depot in (0..10).flat_map(|_| 0..30) {
            line.expect_refused(29 - depot, 19)?;
            line.expect_sent([depot])?;
            line.take([depot])?;
            line.expect_refused(depot, 19)?;
            line.expect_waiting(PLACES)?;
        }
        line.expect_rounds([(0..30, 5)])
    }),
    ("four of each depot are kept for it", || {
        let mut line = Line::new()?;
        for depot in 0..7 {
            line.hand_in(depot, 8, &[18])?;
        }
        line.hand_in(7, 6, &[19])?;
        line.expect_waiting(62)?;
        // The sum is 150, and stays so while a depot has no more than 4.
        for _ in 0..4 {
            line.take(8..30)?;
        }
        for depot in 7..30 {
            line.expect_refused(depot, 19)?;
        }
        line.expect_waiting(PLACES)
    }),
    ("18 before 19", || {
        let mut line = Line::new()?;
        for depot in 20..27 {
            line.hand_in(depot, 8, &[18])?;
        }
        line.hand_in(29, 6, &[19])?;
        line.expect_refused(20, 18)?;
        line.expect_sent([20])?;
        line.take([20])?;
        line.expect_refused(20, 18)?;
        line.expect_refused(29, 19)
    }),
    ("a short output in the middle", || {
        let mut line = Line::new()?;
        line.expect_short()?;
        line.take([3, 3, 1])?;
        line.expect_short()?;
        line.expect_sent([1])?;
        line.expect_short()?;
        line.expect_sent([3])?;
        line.expect_short()?;
        line.expect_sent([3])?;
        line.expect_short()?;
        line.expect_none()
    }),
    ("depot 30 and above", || {
        let mut line = Line::new()?;
        line.take([0, 29])?;
        // The last four are a depot in their last 5, 8, 16 or 31 bits.
        for depot in [
            30,
            31,
            127,
            128,
            255,
            u32::MAX,
            32,
            256,
            65_536 + 29,
            1 << 31,
        ] {
            line.expect_refused(depot, 17)?;
        }
        line.expect_sent([0, 29])?;
        line.expect_none()
    }),
    ("29 is followed by 0", || {
        let mut line = Line::new()?;
        line.take([29, 29, 29, 0, 0])?;
        line.expect_sent([0, 29, 0, 29, 29])?;
        line.take([29, 28, 0])?;
        line.expect_sent([0, 28, 29])
    }),
    ("the turn goes on from the depot served last", || {
        let mut line = Line::new()?;
        line.take([10, 20, 10, 20])?;
        line.expect_sent([10])?;
        // A depot before the turn waits for the round.
        line.take([5, 15])?;
        line.expect_sent([15, 20, 5, 10, 20])
    }),
    ("the turn stays where nothing is sent", || {
        let mut line = Line::new()?;
        line.take([3])?;
        line.expect_sent([3])?;
        line.expect_none()?;
        line.expect_short()?;
        line.expect_refused(30, 17)?;
        line.take([0, 3, 4])?;
        line.expect_sent([4, 0, 3])
    }),
    ("the oldest first, each in its mode", || {
        let mut senders = Senders::new()?;
        for mode in [8, 1, 7, 2, 6, 3, 5, 4] {
            expect_equal("taken", Ok(()), senders.hand_in(&block(17, mode))?)?;
        }
        for mode in [8, 1, 7, 2, 6, 3, 5, 4] {
            let wanted = Ok(Some((17, mode)));
            expect_equal("sent", wanted, senders.send(SYMBOLS)?)?;
        }
        Ok(())
    }),
    ("the oldest first, all of one mode", || {
        let mut senders = Senders::new()?;
        for code in 0..8 {
            let handed = HandIn {
                codes: vec![code, 127 - code, 64],
                ..block(29, 3)
            };
            expect_equal("taken", Ok(()), senders.hand_in(&handed)?)?;
        }
        for _ in 0..8 {
            expect_equal("sent", Ok(Some((29, 3))), senders.send(SYMBOLS + 1)?)?;
        }
        Ok(())
    }),
    ("served at the thirtieth send", || {
        let mut line = Line::new()?;
        for _ in 0..3 {
            line.take(0..30)?;
        }
        line.expect_sent([0])?;
        line.expect_sent(1..30)?;
        line.expect_sent([0])
    }),
];

pub fn run() -> Report {
    for (name, case) in CASES {
        case().map_err(|difference| format!("{name}: {difference}"))?;
    }
    Ok(format!("{} cases worked out by hand", CASES.len()))
}
