//! How often each kind of input and of listing was met.

const KINDS: [&str; 14] = [
    "END",
    "REFUSED 1",
    "REFUSED 2",
    "REFUSED 7",
    "REFUSED 8",
    "REFUSED INPUT 1",
    "REFUSED INPUT later",
    "lines of clear characters",
    "lines of unclear blocks",
    "lines with a negative winner",
    "lines with a negative runner-up",
    "inputs over 4,096 bytes",
    "inputs over 8,192 bytes",
    "inputs without a last line feed",
];

/// Each kind is met at least so often.
const OFTEN: usize = 100;

#[derive(Default)]
pub struct Tally {
    inputs: usize,
    counts: [usize; KINDS.len()],
}

impl Tally {
    pub fn add(&mut self, input: &[u8], listing: &[u8]) {
        self.inputs += 1;
        for line in String::from_utf8_lossy(listing).lines().skip(1) {
            self.count(kind(line));
            if is_negative(line, 5) {
                self.count("lines with a negative winner");
            }
            if is_negative(line, 7) {
                self.count("lines with a negative runner-up");
            }
        }
        if input.len() > 4096 {
            self.count("inputs over 4,096 bytes");
        }
        if input.len() > 8192 {
            self.count("inputs over 8,192 bytes");
        }
        if input.last().is_some_and(|&last| last != b'\n') {
            self.count("inputs without a last line feed");
        }
    }

    fn count(&mut self, kind: &str) {
        let place = KINDS.iter().position(|&name| name == kind);
        self.counts[place.expect("a kind of the table")] += 1;
    }

    pub fn expect_often(&self) -> Result<(), String> {
        match (0..KINDS.len()).find(|&kind| self.counts[kind] < OFTEN) {
            Some(kind) => Err(format!("{}: met {} times", KINDS[kind], self.counts[kind])),
            None => Ok(()),
        }
    }

    pub fn lines(&self) -> String {
        let counts = KINDS.iter().zip(self.counts);
        let counts: Vec<String> = counts
            .map(|(kind, count)| format!("{kind}: {count}"))
            .collect();
        format!("{} random inputs\n  {}", self.inputs, counts.join(", "))
    }
}

/// The kind of a line behind the heading.
fn kind(line: &str) -> &str {
    let words: Vec<&str> = line.split(' ').collect();
    match words[..] {
        ["REFUSED", "INPUT", "1"] => line,
        ["REFUSED", "INPUT", _] => "REFUSED INPUT later",
        ["REFUSED", number, _] => &line[.."REFUSED ".len() + number.len()],
        ["END", _] => "END",
        [_, _, "-", ..] => "lines of unclear blocks",
        _ => "lines of clear characters",
    }
}

/// The line has a number with a minus as its word at this place.
fn is_negative(line: &str, place: usize) -> bool {
    line.split(' ')
        .nth(place)
        .is_some_and(|word| word.starts_with('-'))
}
