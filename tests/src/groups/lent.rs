//! Memory that the library is lent: a part of a larger allocation that is filled with a varying pattern, so that a write to a
//! place that no rule names is seen, within the part and on both sides of it.

use std::fmt::Debug;
use std::hint::black_box;

/// Cells on either side of the part.
const MARGIN: usize = 80;

pub trait Cell: Copy + Debug + PartialEq {
    /// The pattern: varying, and never a value that an output may hold.
    fn pattern(place: usize) -> Self;
}

impl Cell for u8 {
    fn pattern(place: usize) -> u8 {
        128 + (place * 37 % 128) as u8
    }
}

impl Cell for u16 {
    fn pattern(place: usize) -> u16 {
        256 + (place * 997 % 65_000) as u16
    }
}

pub struct Lent<T> {
    cells: Vec<T>,
    room: usize,
}

impl<T: Cell> Lent<T> {
    /// An output of `room` cells that nothing was written to.
    pub fn output(room: usize) -> Self {
        let cells = (0..MARGIN + room + MARGIN).map(T::pattern).collect();
        Lent { cells, room }
    }

    /// An input with these values.
    pub fn input(values: &[T]) -> Self {
        let mut lent = Lent::output(values.len());
        lent.part().copy_from_slice(values);
        lent
    }

    pub fn part(&mut self) -> &mut [T] {
        &mut self.cells[MARGIN..MARGIN + self.room]
    }

    /// The part begins with these values, and all else is the pattern.
    pub fn expect(&self, what: &str, values: &[T]) -> Result<(), String> {
        // The compiler is not to reason from what was lent that it cannot have changed.
        let cells = black_box(&self.cells);
        let wanted = |place: usize| match place.checked_sub(MARGIN) {
            Some(inside) if inside < values.len() => values[inside],
            _ => T::pattern(place),
        };
        match (0..cells.len()).find(|&place| cells[place] != wanted(place)) {
            None => Ok(()),
            Some(place) => Err(format!(
                "{what}, of {} cells, at cell {}\n  wanted {:?}\n  given  {:?}",
                self.room,
                place as isize - MARGIN as isize,
                wanted(place),
                cells[place]
            )),
        }
    }
}
