//! How often each function, mode, refusal, order of two checks and other outcome, and each kind of record was met.

use super::records::KINDS;
use super::{Case, Met, Order};
use std::collections::BTreeMap;

/// Modes that every function has to meet.
pub const MODES: [u32; 13] = [1, 2, 3, 4, 5, 6, 7, 8, 0, 9, 16, 24, u32::MAX];

/// The refusals of document 01, and those of orders 1, 3, 4 and 7 of document 02.
const REFUSALS: [u32; 19] = [
    1, 2, 3, 4, 5, 6, 7, 8, 9, 10, 11, 12, 13, 14, 15, 16, 17, 18, 19,
];

/// Each kind of record, each order of two checks and each other outcome is met at least so often.
const OFTEN: usize = 100;

#[derive(Default)]
pub struct Tally {
    rows: Vec<Row>,
}

/// One function's counts.
pub struct Row {
    function: &'static str,
    refusals: &'static [u32],
    orders: &'static [Order],
    outcomes: &'static [&'static str],
    cases: usize,
    by_mode: BTreeMap<u32, usize>,
    by_number: BTreeMap<u32, usize>,
    by_order: BTreeMap<Order, usize>,
    by_outcome: Vec<usize>,
    records: usize,
    by_kind: [usize; KINDS.len()],
}

impl Tally {
    pub fn open<C: Case>(&mut self) -> &mut Row {
        self.rows.push(Row {
            function: C::FUNCTION,
            refusals: C::REFUSALS,
            orders: C::ORDERS,
            outcomes: C::OUTCOMES,
            cases: 0,
            by_mode: BTreeMap::new(),
            by_number: BTreeMap::new(),
            by_order: BTreeMap::new(),
            by_outcome: vec![0; C::OUTCOMES.len()],
            records: 0,
            by_kind: [0; KINDS.len()],
        });
        self.rows.last_mut().expect("the row just opened")
    }

    fn met(&self, number: u32) -> usize {
        self.rows
            .iter()
            .filter_map(|row| row.by_number.get(&number))
            .sum()
    }

    pub fn expect_every_refusal(&self) -> Result<(), String> {
        match REFUSALS.iter().find(|&&number| self.met(number) == 0) {
            Some(number) => Err(format!("refusal {number} was never met")),
            None => Ok(()),
        }
    }

    fn records(&self, kind: usize) -> usize {
        self.rows.iter().map(|row| row.by_kind[kind]).sum()
    }

    pub fn expect_every_kind(&self) -> Result<(), String> {
        match (0..KINDS.len()).find(|&kind| self.records(kind) < OFTEN) {
            Some(kind) => Err(format!(
                "records with {}: {}",
                KINDS[kind],
                self.records(kind)
            )),
            None => Ok(()),
        }
    }

    pub fn lines(&self) -> String {
        let cases: usize = self.rows.iter().map(|row| row.cases).sum();
        let numbers: Vec<String> = std::iter::once(0)
            .chain(REFUSALS)
            .map(|number| format!("{number}: {}", self.met(number)))
            .collect();
        let mut lines = format!("{cases} cases\n  answers by number, {}", numbers.join(", "));
        for row in &self.rows {
            lines += &format!(
                "\n  {}: {} cases, {}{}{}",
                row.function,
                row.cases,
                row.numbers(),
                row.orders(),
                row.outcomes()
            );
        }
        let kinds = KINDS.iter().enumerate();
        let kinds: Vec<String> = kinds
            .map(|(kind, name)| format!("{name}: {}", self.records(kind)))
            .collect();
        let records: usize = self.rows.iter().map(|row| row.records).sum();
        lines + &format!("\n  {records} records, with {}", kinds.join(", "))
    }
}

impl Row {
    pub fn add(&mut self, mode: u32, met: &Met) {
        self.cases += 1;
        *self.by_mode.entry(mode).or_default() += 1;
        for &number in &met.numbers {
            *self.by_number.entry(number).or_default() += 1;
        }
        for &order in &met.orders {
            *self.by_order.entry(order).or_default() += 1;
        }
        for (count, &is_outcome) in self.by_outcome.iter_mut().zip(&met.outcomes) {
            *count += usize::from(is_outcome);
        }
        for kinds in &met.records {
            self.records += 1;
            for (count, &is_kind) in self.by_kind.iter_mut().zip(kinds) {
                *count += usize::from(is_kind);
            }
        }
    }

    fn numbers(&self) -> String {
        let counts = self.by_number.iter();
        let counts: Vec<String> = counts
            .map(|(number, count)| format!("{number}: {count}"))
            .collect();
        counts.join(", ")
    }

    fn order(&self, order: &Order) -> usize {
        self.by_order.get(order).copied().unwrap_or(0)
    }

    fn orders(&self) -> String {
        let counts = self.orders.iter();
        counts
            .map(|order| format!(", {} before {}: {}", order.0, order.1, self.order(order)))
            .collect()
    }

    fn outcomes(&self) -> String {
        let counts = self.outcomes.iter().zip(&self.by_outcome);
        counts
            .map(|(outcome, count)| format!(", {outcome}: {count}"))
            .collect()
    }

    /// Every mode was handed in, every answer that the function can give was met, and every order of two checks and other outcome
    /// often.
    pub fn expect_all(&self) -> Result<(), String> {
        if let Some(mode) = MODES.iter().find(|mode| !self.by_mode.contains_key(mode)) {
            return Err(format!("{} never met mode {mode}", self.function));
        }
        let mut numbers = std::iter::once(&0).chain(self.refusals);
        if let Some(number) = numbers.find(|number| !self.by_number.contains_key(number)) {
            return Err(format!("{} never met answer {number}", self.function));
        }
        if let Some((first, later)) = self.orders.iter().find(|order| self.order(order) < OFTEN) {
            return Err(format!(
                "{} seldom met {first} before {later}",
                self.function
            ));
        }
        match self.by_outcome.iter().position(|&count| count < OFTEN) {
            Some(place) => Err(format!(
                "{} seldom met: {}",
                self.function, self.outcomes[place]
            )),
            None => Ok(()),
        }
    }
}
