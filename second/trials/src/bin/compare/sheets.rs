//! Tables and arguments for the sheet.

use std::ffi::{OsStr, OsString};
use std::os::unix::ffi::OsStrExt;

use second::{MOST_BYTES, MOST_EVENTS};
use trials::{
    any_share, damage, put_in, put_in_table, random_table, Case, Fault, Files, Random, Row, Shape,
    EDGES, NOT_DIGITS, SHAPES, TOO_LARGE,
};

#[derive(Clone, Copy, Debug, PartialEq, Eq)]
pub enum Manner {
    /// A table and arguments that are read.
    Plain,
    /// One class under another with small or awkward shares, so that numbers grow.
    Steep,
    /// A table that is refused.
    Refused,
    /// A table that is not there or has a fault.
    Faulty(Fault),
    /// A table with a fault of this number.
    Text(u32),
    /// Arguments that cannot be read.
    Arguments,
}

/// All refusals of a table.
const REFUSALS: [u32; 9] = [1, 4, 5, 6, 7, 8, 9, 10, 15];

/// Shares that divide 705,600 but not 840, so that figures become fractions.
const AWKWARD: [u32; 8] = [9, 25, 49, 64, 441, 576, 784, 800];

pub fn sheet_files(manner: Manner, random: &mut Random) -> Files {
    let mut case = Case {
        rows: random_table(random.pick(&SHAPES), any_share(random), random),
        events: Vec::new(),
    };
    let mut arguments = vec![largest(random)];
    match manner {
        Manner::Steep => {
            case.rows = steep_table(random);
            arguments.push(zeroed(random.word().to_string(), random));
            arguments.extend(random.one_in(2).then(|| packets(random)));
        }
        Manner::Refused => {
            let place = random.below(MOST_EVENTS);
            damage(&mut case, random.pick(&REFUSALS), place, random);
        }
        Manner::Arguments => arguments = unread_arguments(random),
        _ if random.one_in(3) => {}
        _ => {
            arguments.push(own(random));
            arguments.extend(random.one_in(2).then(|| packets(random)));
        }
    }
    let mut files = Files {
        events: None,
        sheet: Some(arguments),
        ..Files::of(&case)
    };
    files.disguise(random);
    match manner {
        Manner::Faulty(fault) => put_in(&mut files, fault, random),
        Manner::Text(number) => put_in_table(&mut files, number, random),
        _ => {}
    }
    files
}

/// A chain; no share grows, so the table is still accepted.
fn steep_table(random: &mut Random) -> Vec<Row> {
    let mut rows = random_table(Shape::Chain, 840, random);
    let manner = random.below(3);
    for row in &mut rows[1..] {
        let fits: Vec<u32> = AWKWARD.into_iter().filter(|s| *s <= row.share).collect();
        row.share = match manner {
            0 => random.between(1, row.share as usize) as u32,
            1 if !fits.is_empty() => random.pick(&fits),
            _ => random.between(1, 8).min(row.share as usize) as u32,
        };
    }
    rows
}

fn largest(random: &mut Random) -> OsString {
    let any = random.between(1, MOST_BYTES as usize) as u32;
    let edge = random.pick(&EDGES);
    zeroed(random.pick(&[edge, edge, 1500, any]).to_string(), random)
}

fn own(random: &mut Random) -> OsString {
    let any = random.word() >> random.below(32);
    zeroed(random.pick(&[0, 6000, u32::MAX, any]).to_string(), random)
}

/// With 838 the ticks are a byte.
fn packets(random: &mut Random) -> OsString {
    let any = random.word() >> random.below(32);
    let most = MOST_EVENTS as u32;
    zeroed(
        random.pick(&[0, 838, most, u32::MAX, any, any]).to_string(),
        random,
    )
}

/// Now and then with leading zeros.
pub fn zeroed(number: String, random: &mut Random) -> OsString {
    let zeros = match random.one_in(8) {
        true => random.between(1, 30),
        false => 0,
    };
    OsString::from("0".repeat(zeros) + &number)
}

/// An argument that is no number, or too large a one.
pub fn unread(random: &mut Random) -> OsString {
    // No argument holds a byte 0.
    let unread: Vec<&[u8]> = NOT_DIGITS.into_iter().chain(TOO_LARGE).collect();
    let unread: Vec<&[u8]> = unread.into_iter().filter(|a| !a.contains(&0)).collect();
    OsStr::from_bytes(random.pick(&unread)).to_os_string()
}

fn unread_arguments(random: &mut Random) -> Vec<OsString> {
    let [wrong, other, third] = [(); 3].map(|()| unread(random));
    let one_more = (MOST_BYTES + 1).to_string();
    // In 16 bits 65,537 would be 1.
    let range = random.pick(&["0", &one_more, &one_more, "65537", "4294967295"]);
    let range = OsString::from(range);
    match random.below(10) {
        0 => Vec::new(),
        1 => vec![largest(random), own(random), packets(random), own(random)],
        2 => vec![wrong],
        3 => vec![range],
        4 => vec![random.pick(&[&wrong, &range]).clone(), own(random)],
        5 => vec![range, wrong],
        6 => vec![random.pick(&[&range, &third]).clone(), wrong, other],
        7 => vec![largest(random), wrong],
        8 => vec![largest(random), wrong, other],
        _ => vec![largest(random), own(random), wrong],
    }
}

#[cfg(test)]
mod tests {
    use std::collections::BTreeSet;
    use std::fs;

    use super::*;
    use second::program::Response;
    use trials::{Folder, TEXT_FAULTS};

    /// What the second program answers to 300 such files.
    fn answers(manner: Manner) -> Vec<Response> {
        let folder = Folder::fresh("sheets").expect("a folder can be made");
        let table = folder.path().join("table");
        let answer = |number| {
            let files = sheet_files(manner, &mut Random::new(6, number));
            fs::write(&table, files.table.expect("there is a table")).expect("it can be written");
            let rest = files.sheet.expect("there are arguments");
            second::promise::respond(&[&[table.clone().into_os_string()], &rest[..]].concat())
        };
        (0..300).map(answer).collect()
    }

    fn begin(answers: &[Response], with: &str) -> usize {
        let begins = |a: &&Response| a.output.starts_with(with.as_bytes());
        answers.iter().filter(begins).count()
    }

    #[test]
    fn plain_and_steep_tables_have_a_sheet() {
        assert_eq!(begin(&answers(Manner::Plain), "own bytes "), 300);
        let steep = answers(Manner::Steep);
        assert_eq!(begin(&steep, "own bytes "), 300);
        assert!(with(&steep, "outgrown") > 100 && with(&steep, "rounded up") > 20);
    }

    /// How many of these answers have this in them.
    fn with(answers: &[Response], what: &str) -> usize {
        let has = |a: &&Response| String::from_utf8_lossy(&a.output).contains(what);
        answers.iter().filter(has).count()
    }

    #[test]
    fn a_number_without_ticks_is_there_or_not_below_a_figure_and_where_that_is_outgrown() {
        let answers = [Manner::Plain, Manner::Steep].map(answers);
        let texts = answers
            .iter()
            .flatten()
            .map(|a| String::from_utf8_lossy(&a.output));
        let (mut seen, mut fractions) = ([[0; 2]; 2], 0);
        for text in texts {
            for part in text.split("\n\n").skip(1) {
                let outgrown = part.contains("\n  the line: no number, ");
                let last = part.split_once("\n  without ticks, since each share above divides ");
                seen[usize::from(outgrown)][usize::from(last.is_some())] += 1;
                fractions += usize::from(last.is_some_and(|(_, l)| l.contains(", rounded up ")));
            }
        }
        assert!(seen.concat().iter().all(|count| *count > 20), "{seen:?}");
        assert!(fractions > 100);
    }

    #[test]
    fn packets_are_given_or_not() {
        let plain = answers(Manner::Plain);
        for packets in [0, 838, 65_536, u32::MAX] {
            let ticks = u64::from(packets) + 2;
            let named = format!(", packets finished {packets}, ticks {ticks}\n");
            assert!(with(&plain, &named) > 5, "{packets}");
        }
        let given = |number: &u64| {
            let files = sheet_files(Manner::Plain, &mut Random::new(6, *number));
            files.sheet.is_some_and(|rest| rest.len() == 3)
        };
        let count = (0..300).filter(given).count();
        assert!((50..250).contains(&count));
    }

    #[test]
    fn each_edge_is_the_largest_packet_at_times() {
        let plain = answers(Manner::Plain);
        for edge in EDGES {
            let named = format!(", largest packet {edge}, ");
            assert!(with(&plain, &named) > 20, "{edge}");
        }
    }

    #[test]
    fn every_refusal_of_a_table_comes_up() {
        let refused = answers(Manner::Refused);
        assert_eq!(begin(&refused, "answer,"), 300);
        let said = refused.iter().map(|a| a.error.split(|b| *b == b':').next());
        assert_eq!(said.collect::<BTreeSet<_>>().len(), REFUSALS.len());
    }

    #[test]
    fn faulty_tables_are_answered_with_their_number() {
        let faulty = answers(Manner::Faulty(Fault::NotDigits));
        assert_eq!(begin(&faulty, "answer,place,second,count\r\n42,"), 300);
        for number in TEXT_FAULTS {
            let faulty = answers(Manner::Text(number));
            let wanted = format!("answer,place,second,count\r\n{number},");
            assert_eq!(begin(&faulty, &wanted), 300);
        }
    }

    #[test]
    fn wrong_arguments_cannot_be_read() {
        let wrong = answers(Manner::Arguments);
        assert_eq!(begin(&wrong, "cannot read"), 0);
        let unread = |a: &&Response| a.status == 2 && a.error.starts_with(b"cannot read");
        assert_eq!(wrong.iter().filter(unread).count(), 300);
        let said: BTreeSet<_> = wrong.iter().map(|answer| &answer.error).collect();
        // Two on LARGEST, OWN and PACKETS each, and that on how many arguments there are.
        assert_eq!(said.len(), 7);
    }

    #[test]
    fn the_largest_packet_is_a_byte_too_long_at_times() {
        let beyond = OsString::from((MOST_BYTES + 1).to_string());
        let first = |number| {
            let files = sheet_files(Manner::Arguments, &mut Random::new(6, number));
            files.sheet.and_then(|rest| rest.into_iter().next())
        };
        let found = (0..300).filter_map(first).filter(|first| *first == beyond);
        assert!(found.count() > 20);
    }
}
