//! Which captures are compared: a round of kinds, over and over, and two at the limit of records.

use std::ffi::OsString;

use crate::plan::Trial;
use crate::sheets::{unread, zeroed};
use second::MOST_EVENTS;
use trials::captures::{
    damage_capture, damage_capture_twice, number_pairs, random_capture, CaptureCase, Layout, Pace,
    LAYOUTS, MOST_CAPTURE, MOST_RECORDS, PACES,
};
use trials::{any_share, put_in_table, random_table, Files, Random, SHAPES, TEXT_FAULTS};

#[derive(Clone, Copy, Debug)]
enum Kind {
    Done(Pace),
    NoRecord,
    Refused(u32),
    /// With two damages.
    Pair([u32; 2]),
    /// With a table whose text has a fault of this number.
    Text(u32),
    /// With arguments that are no numbers, or too few or too many.
    Numbers,
    Missing,
    TooLong,
    /// Refused twice, and with several of those above.
    Several,
    /// With so many records.
    Records(usize),
}

use Kind::{Done, Missing, NoRecord, Numbers, Pair, Records, Refused, Several, Text, TooLong};

const ROUND: [Kind; 55] = [
    Done(Pace::Idle),
    Done(Pace::Idle),
    Done(Pace::Busy),
    Done(Pace::Busy),
    Done(Pace::Busy),
    Done(Pace::Bursts),
    Done(Pace::Bursts),
    Done(Pace::Bursts),
    Done(Pace::Ties),
    Done(Pace::Ties),
    Done(Pace::Ties),
    Done(Pace::Multiples),
    Done(Pace::Multiples),
    Done(Pace::Multiples),
    Done(Pace::Multiples),
    Done(Pace::Near),
    Done(Pace::Near),
    Done(Pace::Near),
    NoRecord,
    Refused(30),
    Refused(31),
    Refused(32),
    Refused(33),
    Refused(34),
    Refused(35),
    Refused(36),
    Refused(37),
    Refused(37),
    Refused(38),
    Refused(38),
    Refused(1),
    Refused(2),
    Refused(4),
    Refused(5),
    Refused(6),
    Refused(7),
    Refused(8),
    Refused(9),
    Refused(10),
    Refused(11),
    Refused(12),
    Refused(13),
    Refused(15),
    Text(40),
    Text(41),
    Text(42),
    Text(43),
    Text(44),
    Text(45),
    Text(46),
    Text(47),
    Numbers,
    Missing,
    TooLong,
    Several,
];

/// As many records as there may be, and one more.
const LIMITS: [Kind; 2] = [Records(MOST_RECORDS), Records(MOST_RECORDS + 1)];

/// How many captures are at the limit.
pub const AT_LIMIT: usize = LIMITS.len();

/// One capture in so many is the next of all pairs of refusals.
const PAIR_IN: usize = 3;

/// The capture with this number, of so many besides the two at the limit, which are the last.
pub fn capture_trial(seed: u64, number: usize, captures: usize) -> Trial {
    // Those below are the lists'.
    let mut random = Random::new(seed, (1 << 32) + number as u64);
    let (kind, turn) = match number.checked_sub(captures) {
        None => kind_in_turn(number),
        Some(limit) => (LIMITS[limit % LIMITS.len()], limit),
    };
    let layout = LAYOUTS[turn % LAYOUTS.len()];
    let mut case = done_case(kind, layout, &mut random);
    let place = random.below(MOST_EVENTS);
    match kind {
        Refused(refusal) => damage_capture(&mut case, refusal, place, &mut random),
        Pair(numbers) => damage_capture_twice(&mut case, numbers, &mut random),
        Several => {
            // A fault of the text is put into a row, so there must be one.
            let with_rows = number_pairs().into_iter().filter(|pair| !pair.contains(&1));
            let numbers = random.pick(&with_rows.collect::<Vec<_>>());
            damage_capture_twice(&mut case, numbers, &mut random);
        }
        _ => {}
    }
    let mut files = case.files();
    edit_files(&mut files, kind, &mut random);
    Trial {
        name: format!("Capture({kind:?})"),
        files,
        case: None,
    }
}

/// The kind with this number, and one for its layout, which is another each time that it comes up.
fn kind_in_turn(number: usize) -> (Kind, usize) {
    let turn = |number: usize, kinds: usize| (number % kinds, number % kinds + number / kinds);
    let pairs = number_pairs();
    match number % PAIR_IN {
        0 => {
            let (place, turn) = turn(number / PAIR_IN, pairs.len());
            (Pair(pairs[place]), turn)
        }
        _ => {
            let before = number / PAIR_IN + 1;
            let (place, turn) = turn(number - before, ROUND.len());
            (ROUND[place], turn)
        }
    }
}

/// The capture before any damage.
fn done_case(kind: Kind, layout: Layout, random: &mut Random) -> CaptureCase {
    let rows = random_table(random.pick(&SHAPES), any_share(random), random);
    let pace = match kind {
        Done(pace) => pace,
        Records(_) => Pace::Busy,
        _ => random.pick(&PACES),
    };
    let records = match kind {
        Records(records) => records,
        NoRecord => 0,
        Done(_) if random.one_in(8) => random.between(200, 1000),
        Done(_) => random.between(1, 100),
        _ => random.below(40),
    };
    random_capture(rows, layout, pace, records, random)
}

fn edit_files(files: &mut Files, kind: Kind, random: &mut Random) {
    match kind {
        Text(fault) => put_in_table(files, fault, random),
        Missing => miss(files, random),
        Several => {
            if random.one_in(2) {
                put_in_table(files, random.pick(&TEXT_FAULTS), random);
            }
            if random.one_in(3) {
                miss(files, random);
            }
        }
        _ => {}
    }
    let Some(capture) = &mut files.capture else {
        return;
    };
    for number in &mut capture.numbers {
        *number = zeroed(number.to_string_lossy().into_owned(), random);
    }
    match (kind, &mut capture.bytes) {
        (Numbers, _) => wrong_numbers(&mut capture.numbers, random),
        (Several, _) if random.one_in(3) => wrong_numbers(&mut capture.numbers, random),
        (TooLong, Some(bytes)) => {
            let more = random.between(1, 1000);
            bytes.resize(MOST_CAPTURE + random.pick(&[1, 1, more]), 0);
        }
        _ => {}
    }
}

/// Takes away one of the two files, or both.
fn miss(files: &mut Files, random: &mut Random) {
    let which = random.below(3);
    if which != 0 {
        files.table = None;
    }
    if let Some(capture) = files.capture.as_mut().filter(|_| which != 1) {
        capture.bytes = None;
    }
}

fn wrong_numbers(numbers: &mut Vec<OsString>, random: &mut Random) {
    let place = random.below(numbers.len());
    match random.below(6) {
        0 => numbers.truncate(place),
        1 => numbers.push(numbers[place].clone()),
        2 => {
            numbers[place] = unread(random);
            let other = random.below(numbers.len());
            numbers[other] = unread(random);
        }
        _ => numbers[place] = unread(random),
    }
}

#[cfg(test)]
mod tests {
    use std::collections::BTreeSet;

    use super::*;
    use crate::{DEFAULT_LISTS, LISTS_A_CAPTURE};
    use trials::CaptureFile;

    const CAPTURES: usize = DEFAULT_LISTS / LISTS_A_CAPTURE;

    fn capture(trial: Trial) -> CaptureFile {
        trial.files.capture.expect("there is a capture")
    }

    #[test]
    fn the_same_seed_gives_the_same_files() {
        let files = |seed, number| capture_trial(seed, number, 100).files;
        for number in 0..100 + AT_LIMIT {
            assert_eq!(files(1, number), files(1, number));
            assert_ne!(files(1, number), files(2, number));
        }
    }

    #[test]
    fn every_seed_has_captures_of_all_kinds() {
        for seed in 0..20 {
            (0..2 * ROUND.len()).for_each(|number| drop(capture_trial(seed, number, CAPTURES)));
        }
    }

    #[test]
    fn the_last_two_are_at_the_limit_of_records_and_bytes_fit() {
        for (limit, records) in [MOST_RECORDS, MOST_RECORDS + 1].into_iter().enumerate() {
            let file = capture(capture_trial(1, 5 + limit, 5));
            let bytes = file.bytes.expect("it has bytes");
            assert_eq!(trials::captures::parts(&bytes).len(), 1 + records);
            assert!(bytes.len() <= MOST_CAPTURE);
        }
    }

    #[test]
    fn each_pair_comes_up_and_each_kind_in_each_layout() {
        let name = |kind: Kind| format!("{kind:?}");
        let all: Vec<(Kind, usize)> = (0..CAPTURES).map(kind_in_turn).collect();
        let names: BTreeSet<String> = all.iter().map(|(kind, _)| name(*kind)).collect();
        for pair in number_pairs() {
            assert!(names.contains(&name(Pair(pair))));
        }
        for kind in ROUND {
            let alike = all.iter().filter(|(other, _)| name(*other) == name(kind));
            let layouts: BTreeSet<usize> = alike.map(|(_, turn)| turn % LAYOUTS.len()).collect();
            assert_eq!(layouts.len(), LAYOUTS.len(), "{kind:?}");
        }
    }

    #[test]
    fn files_and_numbers_are_missing_or_wrong_at_times() {
        let of = |wanted: fn(&Kind) -> bool| {
            let numbers = (0..CAPTURES).filter(move |number| wanted(&kind_in_turn(*number).0));
            numbers.map(|number| capture_trial(1, number, CAPTURES))
        };
        let missing: Vec<Trial> = of(|kind| matches!(kind, Missing)).collect();
        assert!(missing.iter().any(|trial| trial.files.table.is_none()));
        let without = |trial: Trial| capture(trial).bytes.is_none();
        assert!(missing.into_iter().any(without));
        let mut numbers = of(|kind| matches!(kind, Numbers)).map(capture);
        assert!(numbers.any(|file| file.numbers.len() != 4));
        let long = of(|kind| matches!(kind, TooLong)).map(capture);
        let lengths = long.filter_map(|file| file.bytes).map(|bytes| bytes.len());
        assert_eq!(lengths.min(), Some(MOST_CAPTURE + 1));
    }
}
