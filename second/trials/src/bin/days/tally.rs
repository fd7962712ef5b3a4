//! Counts what came of the trials.

use std::collections::BTreeMap;

/// What answers stand below.
pub const HEADING: &str = "answer,place,second,count,packet";

/// What is counted besides answers.
#[derive(Clone, Copy, Debug, PartialEq, Eq, PartialOrd, Ord)]
pub enum Met {
    /// A list or table cannot be read, or a state cannot be read or written.
    CannotRead,
    /// A day whose accepted events the run takes too, with the same order and report.
    Replayed,
    /// A packet that is taken after 22 on the same day.
    LeftFull,
    /// A finish that is taken after 21 on the same day.
    FinishedLast,
    /// A report with a number over 63 bits.
    Great,
    /// A state with other words in use, which both refuse.
    Unsound,
    /// A state with other words in use, which both take.
    Sound,
    /// A state with other words out of use.
    OutOfUse,
    /// A line that was answered before the next one was sent.
    Line,
}

/// What each is called, and how often it is wanted in a default run.
const MET: [(Met, &str, u64); 9] = [
    (Met::CannotRead, "what cannot be read or written", 100),
    (Met::Replayed, "a day that the run agrees with", 100),
    (Met::LeftFull, "a packet taken after 22", 100),
    (Met::FinishedLast, "a finish taken after 21", 100),
    (Met::Great, "a report with a number over 63 bits", 30),
    (Met::Unsound, "a changed state that is not sound", 1000),
    (Met::Sound, "a changed state that is sound", 1000),
    (Met::OutOfUse, "a state with other words out of use", 100),
    (Met::Line, "a line answered before the next", 300),
];

/// How often each answer is wanted in a default run.
const ANSWERS: [(u32, u64); 27] = [
    (0, 10_000),
    (1, 3),
    (4, 3),
    (5, 3),
    (6, 3),
    (7, 3),
    (8, 3),
    (9, 3),
    (10, 3),
    (11, 500),
    (12, 500),
    (13, 500),
    (14, 200),
    (15, 3),
    (20, 1000),
    (21, 200),
    (22, 100),
    (40, 3),
    (41, 3),
    (42, 3),
    (43, 3),
    (44, 3),
    (45, 3),
    (46, 3),
    (47, 3),
    (2, 0),
    (3, 0),
];

#[derive(Debug, Default)]
pub struct Tally {
    /// Calls on which the programs agree.
    passed: u64,
    answers: BTreeMap<u32, u64>,
    met: BTreeMap<Met, u64>,
    /// Trials that cannot be made here, and why.
    pub skipped: Vec<String>,
    /// The trials that failed, and what is shown of each.
    pub wrong: BTreeMap<usize, String>,
}

impl Tally {
    /// One more call on which they agree.
    pub fn add(&mut self, output: &[u8]) {
        self.passed += 1;
        for number in numbers(output) {
            *self.answers.entry(number).or_default() += 1;
        }
    }

    pub fn met(&mut self, what: Met) {
        *self.met.entry(what).or_default() += 1;
    }

    pub fn passed(&self) -> u64 {
        self.passed
    }

    pub fn join(&mut self, other: Tally) {
        self.passed += other.passed;
        for (number, count) in other.answers {
            *self.answers.entry(number).or_default() += count;
        }
        for (what, count) in other.met {
            *self.met.entry(what).or_default() += count;
        }
        self.skipped.extend(other.skipped);
        self.wrong.extend(other.wrong);
    }

    fn named(&self) -> Vec<(String, u64, u64)> {
        let answers = ANSWERS.iter().map(|(number, wanted)| {
            let count = self.answers.get(number).copied().unwrap_or(0);
            (format!("answer {number}"), count, *wanted)
        });
        let met = MET.iter().map(|(what, name, wanted)| {
            let count = self.met.get(what).copied().unwrap_or(0);
            (name.to_string(), count, *wanted)
        });
        answers.chain(met).collect()
    }

    /// A line for each answer and for each other thing.
    pub fn text(&self) -> String {
        let wanted = self
            .named()
            .into_iter()
            .filter(|(_, _, wanted)| *wanted > 0);
        let lines = wanted.map(|(name, count, _)| format!("{name}: {count}\n"));
        let skipped = self.skipped.iter().map(|said| format!("{said}\n"));
        lines.chain(skipped).collect()
    }

    /// Sentences on what came up too seldom, or must not come up.
    pub fn shortages(&self) -> Vec<String> {
        let said = |(name, count, wanted): (String, u64, u64)| match wanted {
            0 => (count > 0).then(|| format!("{name} must never come up")),
            _ => (count < wanted).then(|| format!("{name} is wanted {wanted} times at least")),
        };
        self.named().into_iter().filter_map(said).collect()
    }
}

/// The numbers of the answers that are printed, if answers are.
pub fn numbers(output: &[u8]) -> Vec<u32> {
    answers(output)
        .into_iter()
        .map(|[number, ..]| number)
        .collect()
}

/// The answers that are printed below their heading, if they are.
pub fn answers(output: &[u8]) -> Vec<[u32; 5]> {
    let Some(text) = std::str::from_utf8(output).ok() else {
        return Vec::new();
    };
    let mut lines = text.split("\r\n");
    if lines.next() != Some(HEADING) {
        return Vec::new();
    }
    let numbers = |line: &str| {
        let fields = line.split(',').map(|field| field.parse().ok());
        fields.collect::<Option<Vec<u32>>>()?.try_into().ok()
    };
    lines.filter_map(numbers).collect()
}

#[cfg(test)]
mod tests {
    use super::*;

    const OUTPUT: &[u8] = b"answer,place,second,count,packet\r\n0,0,0,1,7\r\n22,0,0,0,0\r\n";

    #[test]
    fn answers_are_read() {
        assert_eq!(answers(OUTPUT), [[0, 0, 0, 1, 7], [22, 0, 0, 0, 0]]);
        assert_eq!(numbers(OUTPUT), [0, 22]);
        let report = b"identifier,bytes,start,finish,virtual,held,lag\r\n1,2,3,4,5,6,7\r\n";
        for other in [&b""[..], &OUTPUT[..34], &OUTPUT[34..], report] {
            assert_eq!(numbers(other), []);
        }
    }

    #[test]
    fn what_comes_up_too_seldom_or_never_may_is_named() {
        let mut tally = Tally::default();
        let wanted = ANSWERS.iter().filter(|(_, wanted)| *wanted > 0).count() + MET.len();
        assert_eq!(tally.shortages().len(), wanted);
        for (number, wanted) in ANSWERS {
            tally.answers.insert(number, wanted);
        }
        for (what, _, wanted) in MET {
            tally.met.insert(what, wanted);
        }
        assert_eq!(tally.shortages(), Vec::<String>::new());
        tally.answers.insert(3, 1);
        assert_eq!(tally.shortages(), ["answer 3 must never come up"]);
    }

    #[test]
    fn tallies_are_joined() {
        let mut one = Tally::default();
        one.add(OUTPUT);
        one.met(Met::Line);
        let mut other = Tally::default();
        other.add(OUTPUT);
        other.met(Met::Line);
        other.skipped.push("a disk: skipped".to_string());
        other.wrong.insert(7, "so".to_string());
        one.join(other);
        assert_eq!((one.passed(), one.wrong.len()), (2, 1));
        let text = one.text();
        for line in [
            "answer 0: 2\n",
            "answer 22: 2\n",
            "a line answered before the next: 2\n",
        ] {
            assert!(text.contains(line), "{text}");
        }
        assert!(text.ends_with("a disk: skipped\n"));
    }
}
