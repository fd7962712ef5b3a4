//! Counts what came of the lists.

use crate::answers::Answers;
use crate::captured::Captured;
use crate::charged::Charged;
use crate::edges::Edges;
use crate::identifiers::Identifiers;
use crate::listed::Listed;
use second::Choices;
use trials::{Both, Case, Files};

/// No list brings about answer 3, since the programs lend slices that are long enough, nor those of
/// captures and of tables alone.
const NEVER: [&str; 11] = [
    "answer 3",
    "answer 30",
    "answer 31",
    "answer 32",
    "answer 33",
    "answer 34",
    "answer 35",
    "answer 36",
    "answer 37",
    "answer 38",
    "tree",
];

/// How often each other answer is wanted among the lists of a default run.
const WANTED: u64 = 36;

/// How many choices the place is to decide in a default run, and how many of these are to
/// take another row than the lowest.
const WANTED_BY_PLACE: u64 = 8000;
const WANTED_NOT_LOWEST: u64 = 4000;

#[derive(Default)]
pub struct Tally {
    /// Those of lists and sheets.
    answers: Answers,
    /// Those of the runs that are accepted.
    choices: Choices,
    edges: Edges,
    identifiers: Identifiers,
    charged: Charged,
    captured: Captured,
    listed: Listed,
    /// Texts of one table and captures of two packets, damaged byte by byte, on which the programs
    /// agree.
    texts: u64,
    octets: u64,
    /// The trials on which they differ.
    pub differing: Vec<usize>,
}

impl Tally {
    pub fn add(&mut self, list: usize, agreed: Option<usize>) {
        match agreed {
            Some(answer) => self.answers.add(answer),
            None => self.differing.push(list),
        }
    }

    pub fn add_capture(&mut self, capture: usize, files: &Files, both: &Both) {
        match both.agreed() {
            Some(answer) => self.captured.add(answer, files, &both.printed[0].output),
            None => self.differing.push(capture),
        }
    }

    pub fn add_table(&mut self, table: usize, both: &Both) {
        match both.agreed() {
            Some(answer) => self.listed.add(answer, &both.printed[0].output),
            None => self.differing.push(table),
        }
    }

    /// These are the same in every run, so their answers are not counted.
    pub fn add_text(&mut self, text: usize, agreed: Option<usize>) {
        match agreed {
            Some(_) => self.texts += 1,
            None => self.differing.push(text),
        }
    }

    /// So are these.
    pub fn add_octets(&mut self, capture: usize, agreed: Option<usize>) {
        match agreed {
            Some(_) => self.octets += 1,
            None => self.differing.push(capture),
        }
    }

    /// Counts what the answer does not tell of a list.
    pub fn look_inside(&mut self, case: &Case) {
        match case.inside() {
            Ok(inside) => {
                self.choices += inside.choices;
                self.edges.add_accepted(case);
                self.identifiers.add_accepted(case);
                self.charged.add_accepted(case);
            }
            Err(refusal) => {
                self.edges.add_refused(case, refusal);
                self.identifiers.add_refused(case, refusal);
            }
        }
    }

    pub fn join(&mut self, other: Tally) {
        self.answers += other.answers;
        self.captured += other.captured;
        self.listed += other.listed;
        self.texts += other.texts;
        self.octets += other.octets;
        self.choices += other.choices;
        self.edges += other.edges;
        self.identifiers += other.identifiers;
        self.charged += other.charged;
        self.differing.extend(other.differing);
    }

    pub fn passed(&self) -> u64 {
        let numbered = [self.answers.sum(), self.captured.sum(), self.listed.sum()];
        numbered.into_iter().sum::<u64>() + self.texts + self.octets
    }

    /// A line for each answer of a list, one each for choices, lengths, identifiers and shares, those
    /// of captures and of tables, and one each for texts and captures damaged byte by byte.
    pub fn text(&self) -> String {
        let answers = self.answers.texts(&NEVER).join("\n");
        let Choices {
            made,
            by_place,
            not_lowest,
        } = self.choices;
        format!(
            "{answers}\nchoices: {made}, decided by the place: {by_place}, \
             of these not the lowest row: {not_lowest}\n{}{}{}{}{}\
             texts of one table, damaged byte by byte: {}\n\
             captures of two packets, damaged byte by byte: {}\n",
            self.edges.text(),
            self.identifiers.text(),
            self.charged.text(),
            self.captured.text(),
            self.listed.text(),
            self.texts,
            self.octets
        )
    }

    /// Sentences on what came up too seldom, or must not come up.
    pub fn shortages(&self) -> Vec<String> {
        let answers = self.answers.shortages(&NEVER, WANTED).into_iter();
        let Choices {
            by_place,
            not_lowest,
            ..
        } = self.choices;
        let choices = [
            too_few("a choice decided by the place", by_place, WANTED_BY_PLACE),
            too_few(
                "a choice not of the lowest row",
                not_lowest,
                WANTED_NOT_LOWEST,
            ),
        ];
        let choices = choices.into_iter().flatten();
        answers
            .chain(choices)
            .chain(self.edges.shortages())
            .chain(self.identifiers.shortages())
            .chain(self.charged.shortages())
            .chain(self.captured.shortages())
            .chain(self.listed.shortages())
            .collect()
    }
}

/// A sentence on what came up less often than it is wanted.
pub fn too_few(name: &str, count: u64, wanted: u64) -> Option<String> {
    (count < wanted).then(|| format!("{name} is wanted {wanted} times at least"))
}

#[cfg(test)]
mod tests {
    use std::fs;

    use super::*;
    use crate::alone::table_trial;
    use crate::{DEFAULT_LISTS, DEFAULT_SEED, LISTS_A_TABLE};
    use second::MOST_BYTES;
    use trials::{even_table, Asked, End, Event, Fed, Folder, Printed, Program};

    #[test]
    fn what_comes_up_too_seldom_is_named() {
        let mut tally = Tally::default();
        let others = [
            tally.answers.shortages(&NEVER, WANTED),
            tally.edges.shortages(),
            tally.identifiers.shortages(),
            tally.charged.shortages(),
            tally.captured.shortages(),
            tally.listed.shortages(),
        ]
        .concat();
        assert_eq!(tally.shortages().len(), 2 + others.len());
        tally.choices.by_place = WANTED_BY_PLACE;
        tally.choices.not_lowest = WANTED_NOT_LOWEST;
        assert_eq!(tally.shortages(), others);
    }

    #[test]
    fn tallies_are_joined() {
        let packet = |length| Case {
            rows: even_table(&[2]),
            events: vec![Event { class: 2, length }],
        };
        let mut tally = Tally::default();
        tally.add(4, None);
        tally.look_inside(&packet(MOST_BYTES));
        let mut other = Tally::default();
        other.add(1, Some(0));
        other.add(2, None);
        other.add_text(7, None);
        other.add_text(8, Some(41));
        other.add_octets(9, Some(30));
        let rate = [("30", "refused 30: a.\n"); 2];
        other.add_capture(10, &Files::default(), &both(Program::Capture, rate));
        let unsaid = [rate[0], ("30", "")];
        other.add_capture(11, &Files::default(), &both(Program::Capture, unsaid));
        let row = [("8", "refused 8 in t: a.\n"); 2];
        other.add_table(12, &both(Program::Table, row));
        let nameless = [("8", "refused 8: a.\n"); 2];
        other.add_table(13, &both(Program::Table, nameless));
        other.look_inside(&packet(1));
        other.look_inside(&packet(MOST_BYTES + 1));
        tally.join(other);
        assert_eq!(tally.passed(), 5);
        assert_eq!(tally.differing, [4, 2, 7, 11, 13]);
        let text = tally.text();
        assert!(text.contains("choices: 2, "));
        assert!(text.contains("packets: 2, of length 1: 1, "));
        assert!(text.contains("refused for length 9001: 1\n"));
        assert!(text.contains("a class with a row's low bits: 0\nshares charged: 1 of 840\n"));
        assert!(text.contains(", answer 15: 0, answer 30: 1, answer 31: 0, "));
        assert!(text.contains("\ntables answer 1: 0, answer 4: 0, answer 5: 0, answer 6: 0, "));
        assert!(text.contains("answer 7: 0, answer 8: 1, answer 9: 0, "));
        assert!(text.contains("texts of one table, damaged byte by byte: 1\n"));
        assert!(text.ends_with("captures of two packets, damaged byte by byte: 1\n"));
    }

    /// The second program's answer to this table, as if both had given it.
    fn both_of(files: &Files, folder: &Folder) -> Both {
        let table = folder.path().join("table");
        match &files.table {
            Some(bytes) => fs::write(&table, bytes).expect("it can be written"),
            None => drop(fs::remove_file(&table)),
        }
        let arguments = vec![table.into_os_string()];
        let response = second::table_program::respond(&arguments);
        let printed = Printed {
            output: response.output,
            error: response.error,
            end: End::Status(response.status.into()),
        };
        let asked = Asked {
            program: Program::Table,
            arguments,
            fed: Fed::Nothing,
        };
        let printed = [printed.clone(), printed];
        Both { asked, printed }
    }

    #[test]
    fn every_seed_has_enough_of_all_tables() {
        let folder = Folder::fresh("tables").expect("a folder can be made");
        for seed in [0, 1, DEFAULT_SEED] {
            let mut tally = Tally::default();
            for number in 0..DEFAULT_LISTS / LISTS_A_TABLE {
                let files = table_trial(seed, number).files;
                tally.add_table(number, &both_of(&files, &folder));
            }
            assert_eq!(tally.differing, [], "seed {seed}");
            assert_eq!(
                tally.listed.shortages(),
                Vec::<String>::new(),
                "seed {seed}"
            );
        }
    }

    /// Both programs refuse with a number and a sentence.
    fn both(program: Program, said: [(&str, &str); 2]) -> Both {
        let arguments = if program == Program::Table { 1 } else { 6 };
        let asked = Asked {
            program,
            arguments: vec!["t".into(); arguments],
            fed: Fed::Nothing,
        };
        let printed = said.map(|(number, sentence)| Printed {
            output: format!("answer,place,second,count\r\n{number},0,0,0\r\n").into_bytes(),
            error: sentence.as_bytes().to_vec(),
            end: End::Status(1),
        });
        Both { asked, printed }
    }
}
