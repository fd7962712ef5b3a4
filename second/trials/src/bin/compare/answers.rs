//! Counts how often each answer came up.

use std::ops::AddAssign;

use crate::tally::too_few;
use trials::{answer_name, ANSWERS};

#[derive(Clone, Debug, PartialEq, Eq)]
pub struct Answers([u64; ANSWERS]);

impl Default for Answers {
    fn default() -> Answers {
        Answers([0; ANSWERS])
    }
}

impl Answers {
    pub fn add(&mut self, answer: usize) {
        self.0[answer] += 1;
    }

    pub fn sum(&self) -> u64 {
        self.0.iter().sum()
    }

    fn named(&self) -> impl Iterator<Item = (String, u64)> + '_ {
        let counts = self.0.iter().enumerate();
        counts.map(|(answer, count)| (answer_name(answer), *count))
    }

    /// The count of each answer but those that must never come up.
    pub fn texts(&self, never: &[&str]) -> Vec<String> {
        let wanted = self.named().filter(|(name, _)| !never.contains(&&name[..]));
        wanted
            .map(|(name, count)| format!("{name}: {count}"))
            .collect()
    }

    /// Sentences on answers that came up too seldom, or must not come up.
    pub fn shortages(&self, never: &[&str], wanted: u64) -> Vec<String> {
        let said = |(name, count): (String, u64)| match never.contains(&&name[..]) {
            true => (count > 0).then(|| format!("{name} must never come up")),
            false => too_few(&name, count, wanted),
        };
        self.named().filter_map(said).collect()
    }
}

impl AddAssign for Answers {
    fn add_assign(&mut self, more: Answers) {
        for (count, more) in self.0.iter_mut().zip(more.0) {
            *count += more;
        }
    }
}

#[cfg(test)]
mod tests {
    use super::*;

    #[test]
    fn each_answer_is_wanted_or_must_not_come_up() {
        let mut answers = Answers([7; ANSWERS]);
        assert!(answers.shortages(&[], 7).is_empty());
        assert_eq!(answers.shortages(&["answer 3"], 7).len(), 1);
        answers.0[3] = 0;
        assert!(answers.shortages(&["answer 3"], 7).is_empty());
        answers.add(4);
        assert_eq!(answers.shortages(&["answer 3"], 8).len(), ANSWERS - 2);
        assert_eq!(answers.sum(), 7 * (ANSWERS as u64 - 1) + 1);
    }

    #[test]
    fn counts_are_joined_and_shown() {
        let mut answers = Answers::default();
        answers.add(0);
        answers += answers.clone();
        let texts = answers.texts(&["answer 1"]);
        assert_eq!(texts[..2], ["answer 0: 2", "answer 2: 0"]);
        assert_eq!(texts.len(), ANSWERS - 1);
    }
}
