//! Counts tables that are asked for alone: their answers, and of those with several refusals how many
//! have each.

use std::ops::AddAssign;

use crate::alone::REFUSALS;
use crate::answers::Answers;
use crate::tally::too_few;

/// Neither a run nor a capture is done or refused.
const NEVER: [&str; 18] = [
    "answer 0",
    "answer 2",
    "answer 3",
    "answer 11",
    "answer 12",
    "answer 13",
    "answer 14",
    "answer 30",
    "answer 31",
    "answer 32",
    "answer 33",
    "answer 34",
    "answer 35",
    "answer 36",
    "answer 37",
    "answer 38",
    "sheet",
    "sheet that outgrows",
];

/// How often each other answer is wanted, and trees, among the tables of a default run.
const WANTED: u64 = 8;
const WANTED_TREES: u64 = 100;

/// How often each refusal is wanted in a table with several.
const WANTED_OF_SEVERAL: u64 = 50;

/// How many trees are wanted with a class whose part of the line is too small to be shown.
const WANTED_SMALL: u64 = 20;

#[derive(Clone, Debug, Default, PartialEq, Eq)]
pub struct Listed {
    /// The first ones.
    answers: Answers,
    trees: u64,
    small: u64,
    several: u64,
    /// Tables with several that have each refusal.
    with: [u64; REFUSALS.len()],
}

impl Listed {
    /// One table more, with its answer and what is printed for it.
    pub fn add(&mut self, answer: usize, output: &[u8]) {
        self.answers.add(answer);
        let text = String::from_utf8_lossy(output);
        let mut lines = text.lines();
        match lines.next() {
            Some(heading) if heading.starts_with("class ") => {
                self.trees += 1;
                self.small += u64::from(text.contains("< 0.01\n"));
            }
            _ => {
                let number = |line: &str| line.split(',').next()?.parse().ok();
                self.add_refusals(&lines.filter_map(number).collect::<Vec<u32>>());
            }
        }
    }

    fn add_refusals(&mut self, numbers: &[u32]) {
        if numbers.len() < 2 {
            return;
        }
        self.several += 1;
        for (count, number) in self.with.iter_mut().zip(REFUSALS) {
            *count += u64::from(numbers.contains(&number));
        }
    }

    pub fn sum(&self) -> u64 {
        self.answers.sum()
    }

    /// A line for all answers, and one for what there is in tables with several.
    pub fn text(&self) -> String {
        let answers = self.answers.texts(&NEVER).join(", ");
        let with = REFUSALS.iter().zip(self.with);
        let with: String = with
            .map(|(number, count)| format!(", with {number}: {count}"))
            .collect();
        format!(
            "tables {answers}\ntables with several refusals: {}{with}; \
             trees with a part below 0.01: {}\n",
            self.several, self.small
        )
    }

    /// Sentences on what came up too seldom, or must not come up.
    pub fn shortages(&self) -> Vec<String> {
        let answers = self.answers.shortages(&NEVER, WANTED).into_iter();
        let with = REFUSALS
            .iter()
            .zip(self.with)
            .filter_map(|(number, count)| {
                let name = format!("refusal {number} in a table with several");
                too_few(&name, count, WANTED_OF_SEVERAL)
            });
        answers
            .map(|said| format!("of tables: {said}"))
            .chain(with)
            .chain(too_few("a tree", self.trees, WANTED_TREES))
            .chain(too_few(
                "a tree with a small part",
                self.small,
                WANTED_SMALL,
            ))
            .collect()
    }
}

impl AddAssign for Listed {
    fn add_assign(&mut self, more: Listed) {
        self.answers += more.answers;
        self.trees += more.trees;
        self.small += more.small;
        self.several += more.several;
        for (count, more) in self.with.iter_mut().zip(more.with) {
            *count += more;
        }
    }
}

#[cfg(test)]
mod tests {
    use super::*;

    fn refused(numbers: &[u32]) -> Vec<u8> {
        let lines = numbers.iter().map(|number| format!("{number},3,0,0\r\n"));
        format!("answer,place,second,count\r\n{}", lines.collect::<String>()).into_bytes()
    }

    #[test]
    fn refusals_are_counted_in_tables_with_several() {
        let mut listed = Listed::default();
        listed.add(4, &refused(&[4]));
        listed.add(4, &refused(&[4, 7, 7, 10]));
        listed.add(6, &refused(&[6, 15]));
        listed += listed.clone();
        let text = listed.text();
        assert_eq!(listed.sum(), 6);
        assert!(text.starts_with("tables answer 1: 0, answer 4: 4, answer 5: 0, answer 6: 2, "));
        assert!(text.ends_with(
            "tables with several refusals: 4, with 4: 2, with 5: 0, with 6: 2, with 7: 2, \
             with 8: 0, with 9: 0, with 10: 2, with 15: 2; trees with a part below 0.01: 0\n"
        ));
    }

    #[test]
    fn trees_are_counted_and_those_with_a_small_part() {
        let mut listed = Listed::default();
        let heading = "class                 share  % of parent  % of the line\n";
        listed.add(36, heading.as_bytes());
        listed.add(36, format!("{heading}  2  1  0.11  < 0.01\n").as_bytes());
        listed.add(33, b"");
        assert_eq!((listed.trees, listed.small, listed.several), (2, 1, 0));
        assert_eq!(listed.sum(), 3);
    }

    #[test]
    fn what_comes_up_too_seldom_is_named() {
        let mut listed = Listed {
            trees: WANTED_TREES,
            small: WANTED_SMALL,
            with: [WANTED_OF_SEVERAL; REFUSALS.len()],
            ..Listed::default()
        };
        let without = listed.shortages().len();
        listed.trees -= 1;
        listed.small -= 1;
        listed.with[3] -= 1;
        listed.with[7] -= 1;
        assert_eq!(listed.shortages().len(), without + 4);
        listed.answers.add(0);
        assert_eq!(listed.shortages().len(), without + 5);
    }
}
