//! Counts what came of the calls.

/// Answers 0 to 15.
const NUMBERS: usize = 16;

/// How often each answer is wanted in a default run, and how often part words.
const WANTED: u64 = 100;
const WANTED_PART_WORDS: u64 = 400;

#[derive(Default)]
pub struct Tally {
    numbers: [u64; NUMBERS],
    /// Those of answer 3 that are refused before all else.
    part_words: u64,
    unaligned: u64,
    /// The calls that came out differently.
    pub differing: Vec<usize>,
}

impl Tally {
    /// A call that all do alike: its number, whether it has part words, and how many of its slices
    /// begin at odd addresses.
    pub fn add(&mut self, number: u32, part_words: bool, unaligned: usize) {
        self.numbers[number as usize] += 1;
        self.part_words += u64::from(part_words);
        self.unaligned += unaligned as u64;
    }

    pub fn join(&mut self, other: Tally) {
        for (count, more) in self.numbers.iter_mut().zip(other.numbers) {
            *count += more;
        }
        self.part_words += other.part_words;
        self.unaligned += other.unaligned;
        self.differing.extend(other.differing);
    }

    pub fn passed(&self) -> u64 {
        self.numbers.iter().sum()
    }

    pub fn text(&self) -> String {
        let line = |(number, count): (usize, &u64)| format!("answer {number}: {count}\n");
        let numbers: String = self.numbers.iter().enumerate().map(line).collect();
        format!(
            "{numbers}part words, or an answer that is not of 16 bytes: {}\n\
             slices at an address that is no multiple of their words' bytes: {}\n",
            self.part_words, self.unaligned
        )
    }

    /// Sentences on what came up too seldom.
    pub fn shortages(&self) -> Vec<String> {
        let numbers = self.numbers.iter().enumerate();
        let wanted = numbers.map(|(number, count)| (format!("answer {number}"), *count, WANTED));
        // A refusal 3 for want of room is one that part words are not.
        let room = self.numbers[3] - self.part_words;
        let others = [
            ("part words".to_string(), self.part_words, WANTED_PART_WORDS),
            ("too little room".to_string(), room, WANTED),
            ("an odd address".to_string(), self.unaligned, self.passed()),
        ];
        let few = |(name, count, wanted): (String, u64, u64)| {
            (count < wanted).then(|| format!("{name} is wanted {wanted} times at least"))
        };
        wanted.chain(others).filter_map(few).collect()
    }
}

#[cfg(test)]
mod tests {
    use super::*;

    #[test]
    fn what_comes_up_too_seldom_is_named() {
        let mut tally = Tally {
            numbers: [WANTED; NUMBERS],
            part_words: WANTED_PART_WORDS,
            unaligned: 10 * WANTED_PART_WORDS * NUMBERS as u64,
            differing: Vec::new(),
        };
        tally.numbers[3] = WANTED_PART_WORDS + WANTED;
        assert_eq!(tally.shortages(), Vec::<String>::new());
        tally.numbers[3] -= 1;
        tally.numbers[9] = 0;
        tally.unaligned = 0;
        assert_eq!(
            tally.shortages(),
            [
                "answer 9 is wanted 100 times at least",
                "too little room is wanted 100 times at least",
                "an odd address is wanted 1899 times at least",
            ]
        );
    }

    #[test]
    fn tallies_are_joined() {
        let mut tally = Tally::default();
        tally.add(0, false, 7);
        tally.add(3, true, 2);
        let mut other = Tally::default();
        other.add(3, false, 1);
        other.differing.push(8);
        tally.join(other);
        assert_eq!((tally.passed(), &tally.differing[..]), (3, &[8][..]));
        assert_eq!(tally.numbers[3], 2);
        assert!(tally.text().contains("16 bytes: 1\n"));
        assert!(tally.text().ends_with("bytes: 10\n"));
    }
}
