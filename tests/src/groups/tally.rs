//! How often each kind of block, message, run, measurement or sentence was met.

/// Each kind is met at least so often.
const OFTEN: usize = 100;

pub struct Tally<const KINDS: usize> {
    kinds: [&'static str; KINDS],
    cases: usize,
    counts: [usize; KINDS],
}

impl<const KINDS: usize> Tally<KINDS> {
    pub fn new(kinds: [&'static str; KINDS]) -> Self {
        Tally {
            kinds,
            cases: 0,
            counts: [0; KINDS],
        }
    }

    /// Adds a case that is of these kinds.
    pub fn add(&mut self, is_kind: [bool; KINDS]) {
        self.cases += 1;
        for (count, is_kind) in self.counts.iter_mut().zip(is_kind) {
            *count += usize::from(is_kind);
        }
    }

    pub fn expect_often(&self) -> Result<(), String> {
        match (0..KINDS).find(|&kind| self.counts[kind] < OFTEN) {
            Some(kind) => Err(format!(
                "{}: met {} times",
                self.kinds[kind], self.counts[kind]
            )),
            None => Ok(()),
        }
    }

    pub fn line(&self, cases: &str) -> String {
        let counts = self.kinds.iter().zip(self.counts);
        let counts: Vec<String> = counts
            .map(|(kind, count)| format!("{kind}: {count}"))
            .collect();
        format!("{} {cases}, {}", self.cases, counts.join(", "))
    }
}
