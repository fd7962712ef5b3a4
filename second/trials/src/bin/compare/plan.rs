//! Which lists are compared: a round of kinds, over and over, and one list of full size.

use std::mem::discriminant;

use crate::sheets::{sheet_files, Manner};
use second::{MOST_DEPTH, MOST_EVENTS, WHOLE};
use trials::{
    damage, damage_twice, put_in, put_in_table, random_events, random_table, rounding_case, Case,
    Fault, Files, Random, Shape, FAULTS, TEXT_FAULTS,
};

#[derive(Clone, Copy, Debug)]
enum Kind {
    Accepted(Shape),
    NoEvents,
    Rounding,
    Refused(u32),
    TwiceDamaged,
    Faulty,
    /// With a table whose text has a fault of this number.
    Text(u32),
    FullSize,
    Sheet(Manner),
    FaultySheet,
    TextSheet,
}

use Kind::{
    Accepted, Faulty, FaultySheet, NoEvents, Refused, Rounding, Sheet, Text, TextSheet,
    TwiceDamaged,
};

const ROUND: [Kind; ROUND_LISTS] = [
    Accepted(Shape::Flat),
    Accepted(Shape::Chain),
    Accepted(Shape::Deep),
    Accepted(Shape::Deep),
    Accepted(Shape::Wide),
    Accepted(Shape::Any),
    Accepted(Shape::Any),
    Rounding,
    Rounding,
    Rounding,
    Rounding,
    Accepted(Shape::Even),
    Accepted(Shape::Even),
    Accepted(Shape::Groups),
    Accepted(Shape::Groups),
    Accepted(Shape::Levels),
    Accepted(Shape::Levels),
    Accepted(Shape::Levels),
    Accepted(Shape::Two),
    Accepted(Shape::Full),
    NoEvents,
    Refused(1),
    Refused(2),
    Refused(4),
    Refused(5),
    Refused(6),
    Refused(7),
    Refused(8),
    Refused(9),
    Refused(10),
    Refused(11),
    Refused(12),
    Refused(13),
    Refused(14),
    Refused(15),
    TwiceDamaged,
    TwiceDamaged,
    TwiceDamaged,
    TwiceDamaged,
    Faulty,
    Faulty,
    Faulty,
    Faulty,
    Faulty,
    Text(40),
    Text(41),
    Text(42),
    Text(43),
    Text(44),
    Text(45),
    Text(46),
    Text(47),
    Sheet(Manner::Plain),
    Sheet(Manner::Plain),
    Sheet(Manner::Steep),
    Sheet(Manner::Steep),
    Sheet(Manner::Steep),
    Sheet(Manner::Refused),
    Sheet(Manner::Arguments),
    FaultySheet,
    TextSheet,
];

/// Lists of a round.
pub const ROUND_LISTS: usize = 61;

/// One list and what it is, for a reader.
pub struct Trial {
    pub name: String,
    pub files: Files,
    /// The same in numbers, for a run over files that can be read.
    pub case: Option<Case>,
}

/// The list with this number, of so many besides the one of full size, which is the last.
pub fn trial(seed: u64, number: usize, lists: usize) -> Trial {
    let mut random = Random::new(seed, number as u64);
    let kind = match number < lists {
        true => ROUND[number % ROUND.len()],
        false => Kind::FullSize,
    };
    match kind {
        Sheet(manner) => sheet(manner, &mut random),
        FaultySheet => sheet(Manner::Faulty(fault_in_turn(number)), &mut random),
        TextSheet => {
            let fault = TEXT_FAULTS[turn(number) % TEXT_FAULTS.len()];
            sheet(Manner::Text(fault), &mut random)
        }
        _ => run(kind, number, random),
    }
}

fn sheet(manner: Manner, random: &mut Random) -> Trial {
    Trial {
        name: format!("Sheet({manner:?})"),
        files: sheet_files(manner, random),
        case: None,
    }
}

fn run(kind: Kind, number: usize, mut random: Random) -> Trial {
    let mut case = accepted_case(kind, number, &mut random);
    match kind {
        Refused(refusal) => {
            let place = random.below(MOST_EVENTS);
            damage(&mut case, refusal, place, &mut random);
        }
        TwiceDamaged => damage_twice(&mut case, &mut random),
        _ => {}
    }
    let mut files = Files::of(&case);
    files.disguise(&mut random);
    let mut name = format!("{kind:?}");
    match kind {
        Faulty => {
            let fault = fault_in_turn(number);
            put_in(&mut files, fault, &mut random);
            name = format!("{fault:?}");
        }
        Text(fault) => put_in_table(&mut files, fault, &mut random),
        _ => {}
    }
    let case = (!matches!(kind, Faulty | Text(_))).then_some(case);
    Trial { name, files, case }
}

/// Counts on from one list of a kind to the next, where those of a round follow each other.
fn turn(number: usize) -> usize {
    let kind = discriminant(&ROUND[number % ROUND.len()]);
    let alike = ROUND.iter().filter(|k| discriminant(*k) == kind).count();
    number / ROUND.len() * alike + number % ROUND.len()
}

fn fault_in_turn(number: usize) -> Fault {
    FAULTS[turn(number) % FAULTS.len()]
}

/// Classes above those of a list on rounding; every other such list has them.
const ABOVE: usize = MOST_DEPTH - 1;

/// In a default run there are just enough such lists for each share to be above once.
fn rounding(number: usize, random: &mut Random) -> Case {
    let turn = turn(number);
    let share = |place| 1 + (turn / 2 * ABOVE + place) as u32 % WHOLE;
    let above: Vec<u32> = (0..turn % 2 * ABOVE).map(share).collect();
    rounding_case(&above, random)
}

/// The table and the list before any damage.
fn accepted_case(kind: Kind, number: usize, random: &mut Random) -> Case {
    let shape = match kind {
        Rounding => return rounding(number, random),
        Accepted(shape) => shape,
        Kind::FullSize => Shape::Full,
        _ => random.pick(&[Shape::Flat, Shape::Deep, Shape::Wide, Shape::Any]),
    };
    let most = match kind {
        Kind::FullSize => MOST_EVENTS,
        NoEvents => 0,
        Accepted(_) if random.one_in(8) => random.between(300, 2000),
        Accepted(_) => random.between(1, 300),
        _ => random.below(60),
    };
    let drains = !matches!(kind, Kind::FullSize) && random.one_in(2);
    let rows = random_table(shape, 1 + number as u32 % WHOLE, random);
    let events = random_events(&rows, most, drains, random);
    Case { rows, events }
}

#[cfg(test)]
mod tests {
    use std::collections::BTreeSet;

    use super::*;
    use crate::charged::Charged;
    use crate::{DEFAULT_LISTS, DEFAULT_SEED};
    use second::MOST_IDENTIFIER;

    fn accepted_cases() -> Vec<Case> {
        let case = |number| {
            let kind = ROUND[number % ROUND.len()];
            let mut random = Random::new(DEFAULT_SEED, number as u64);
            matches!(kind, Accepted(_) | NoEvents | Rounding)
                .then(|| accepted_case(kind, number, &mut random))
        };
        (0..DEFAULT_LISTS).filter_map(case).collect()
    }

    #[test]
    fn accepted_lists_are_accepted() {
        let cases = accepted_cases();
        assert!(cases.len() > 1000);
        assert!(cases.iter().all(|case| case.answer().number == 0));
    }

    #[test]
    fn all_shares_and_sizes_come_up() {
        let cases = accepted_cases();
        let rows = || cases.iter().flat_map(|case| &case.rows);
        let shares: BTreeSet<u32> = rows().map(|row| row.share).collect();
        // Besides those of classes, the root's 0.
        assert_eq!(shares, (0..=WHOLE).collect());
        assert!(rows().any(|row| row.identifier == MOST_IDENTIFIER));
        assert!(cases.iter().any(|case| case.rows.len() == 2));
        assert!(cases.iter().any(|case| case.rows.len() == 256));
        assert!(cases.iter().any(|case| case.events.is_empty()));
    }

    #[test]
    fn lists_on_rounding_charge_every_share_whatever_the_seed() {
        let is_rounding = |number: &usize| matches!(ROUND[number % ROUND.len()], Rounding);
        for seed in [0, 1, DEFAULT_SEED] {
            let mut charged = Charged::default();
            for number in (0..DEFAULT_LISTS).filter(is_rounding) {
                let mut random = Random::new(seed, number as u64);
                charged.add_accepted(&accepted_case(Rounding, number, &mut random));
            }
            assert_eq!(charged.shortages(), Vec::<String>::new());
        }
    }

    #[test]
    fn every_fault_takes_its_turn() {
        let name = |number| trial(1, number, DEFAULT_LISTS).name;
        let kind = |number: usize| ROUND[number % ROUND.len()];
        let is_faulty = |number: &usize| {
            let kind = kind(*number);
            matches!(kind, Faulty | FaultySheet | Text(_) | TextSheet)
        };
        let names: BTreeSet<String> = (0..DEFAULT_LISTS).filter(is_faulty).map(name).collect();
        assert_eq!(names.len(), 2 * FAULTS.len() + 2 * TEXT_FAULTS.len());
    }

    #[test]
    fn the_last_list_has_full_size() {
        let case = accepted_case(Kind::FullSize, 1, &mut Random::new(DEFAULT_SEED, 1));
        assert_eq!((case.rows.len(), case.events.len()), (256, MOST_EVENTS));
        assert_eq!(case.answer().number, 0);
    }

    #[test]
    fn every_seed_has_lists_of_all_kinds() {
        for seed in 0..50 {
            (0..ROUND.len()).for_each(|number| drop(trial(seed, number, ROUND.len())));
        }
    }

    #[test]
    fn the_same_seed_gives_the_same_files() {
        let files = |seed, number| trial(seed, number, ROUND.len()).files;
        assert!((0..ROUND.len()).all(|number| files(1, number) == files(1, number)));
        assert!((0..ROUND.len()).all(|number| files(1, number) != files(2, number)));
    }
}
