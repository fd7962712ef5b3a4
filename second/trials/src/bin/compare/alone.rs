//! Which tables are asked for alone: accepted ones, their rows in any order, and ones with several
//! refusals.

use std::collections::BTreeSet;

use crate::plan::Trial;
use second::{MOST_DEPTH, MOST_EVENTS, WHOLE};
use trials::{
    any_share, damage, fresh_identifier, put_in_table, random_table, Case, Files, Random, Row,
    Shape, SHAPES, TEXT_FAULTS,
};

#[derive(Clone, Copy, Debug)]
enum Kind {
    Accepted(Shape),
    /// Of the greatest depth, with shares that leave all of the line, next to nothing, or just what
    /// can be shown.
    Steep,
    Refused,
    /// With a wrong number of rows.
    Rows,
    /// With a fault of the text, and half of the time with refusals too.
    Text,
    Missing,
}

use Kind::{Accepted, Missing, Refused, Rows, Steep, Text};

const ROUND: [Kind; 30] = [
    Accepted(Shape::Flat),
    Accepted(Shape::Chain),
    Accepted(Shape::Deep),
    Accepted(Shape::Wide),
    Accepted(Shape::Any),
    Accepted(Shape::Even),
    Accepted(Shape::Groups),
    Accepted(Shape::Levels),
    Accepted(Shape::Two),
    Accepted(Shape::Full),
    Steep,
    Steep,
    Refused,
    Refused,
    Refused,
    Refused,
    Refused,
    Refused,
    Refused,
    Refused,
    Refused,
    Refused,
    Refused,
    Refused,
    Refused,
    Text,
    Text,
    Text,
    Rows,
    Missing,
];

/// The refusals of rows and of their children.
pub const REFUSALS: [u32; 8] = [4, 5, 6, 7, 8, 9, 10, 15];

/// Faults of one table at most, and rows that each puts in at most.
const FAULTS: usize = 8;
const CHAIN: usize = MOST_DEPTH + 4;

/// Rows that a table has at most before that.
const ROOM: usize = 256 - FAULTS * CHAIN;

/// The table with this number.
pub fn table_trial(seed: u64, number: usize) -> Trial {
    // Those below are the lists' and the captures'.
    let mut random = Random::new(seed, (2 << 32) + number as u64);
    let kind = ROUND[number % ROUND.len()];
    let mut case = Case {
        rows: accepted_rows(kind, &mut random),
        events: Vec::new(),
    };
    match kind {
        Refused => put_in_faults(&mut case, &mut random),
        Text | Rows if random.one_in(2) => put_in_faults(&mut case, &mut random),
        _ => {}
    }
    if let Rows = kind {
        damage(&mut case, 1, 0, &mut random);
    }
    let mut files = Files {
        events: None,
        alone: true,
        ..Files::of(&case)
    };
    match kind {
        Text => put_in_table(
            &mut files,
            TEXT_FAULTS[turn(number) % TEXT_FAULTS.len()],
            &mut random,
        ),
        Missing => files.table = None,
        _ => {}
    }
    Trial {
        name: format!("Table({kind:?})"),
        files,
        case: None,
    }
}

/// Counts on from one table with a fault of its text to the next.
fn turn(number: usize) -> usize {
    let texts = |kinds: &[Kind]| kinds.iter().filter(|kind| matches!(kind, Text)).count();
    number / ROUND.len() * texts(&ROUND) + texts(&ROUND[..number % ROUND.len()])
}

/// The rows before any damage, mostly in another order than they grew in.
fn accepted_rows(kind: Kind, random: &mut Random) -> Vec<Row> {
    let rows = match kind {
        Accepted(shape) => random_table(shape, any_share(random), random),
        Steep => steep_rows(random),
        _ => random_table(random.pick(&SHAPES), any_share(random), random),
    };
    match random.one_in(4) {
        true => rows,
        false => reordered(&rows, random),
    }
}

/// The rows of an accepted table in any order in which each stands below its parent.
fn reordered(rows: &[Row], random: &mut Random) -> Vec<Row> {
    let mut left = rows[1..].to_vec();
    let mut order = vec![rows[0]];
    let mut above = BTreeSet::from([rows[0].identifier]);
    while !left.is_empty() {
        let can_be_next = |place: &usize| above.contains(&left[*place].parent);
        let places: Vec<usize> = (0..left.len()).filter(can_be_next).collect();
        let next = left.swap_remove(random.pick(&places));
        above.insert(next.identifier);
        order.push(next);
    }
    order
}

/// Four shares of 84 leave a hundredth of a per cent, the least that is shown.
const STEEP: [&[u32]; 4] = [
    &[1, 2, 839, 840],
    &[839, 840],
    &[84, 84, 84, 840],
    &[83, 84, 84, 84, 85, 840],
];

/// One class under another down to the greatest depth, some with one beside them that has the rest.
fn steep_rows(random: &mut Random) -> Vec<Row> {
    let mut rows = random_table(Shape::Two, WHOLE, random);
    rows.truncate(1);
    let shares = random.pick(&STEEP);
    let mut parent = rows[0].identifier;
    for _ in 0..MOST_DEPTH {
        let share = match random.one_in(8) {
            true => any_share(random),
            false => random.pick(shares),
        };
        let beside = (share < WHOLE && random.one_in(2)).then_some(WHOLE - share);
        for share in beside.into_iter().chain([share]) {
            let identifier = fresh_identifier(&rows, random);
            rows.push(Row {
                identifier,
                parent,
                share,
            });
        }
        parent = rows[rows.len() - 1].identifier;
    }
    rows
}

/// One to eight faults at any rows, in one of three tables of one number. One may hide another, or
/// bring further ones about.
fn put_in_faults(case: &mut Case, random: &mut Random) {
    case.rows.truncate(ROOM);
    let one = random.pick(&REFUSALS);
    let numbers = match random.one_in(3) {
        true => &[one][..],
        false => &REFUSALS,
    };
    for _ in 0..random.between(1, FAULTS) {
        match random.pick(numbers) {
            8 => wrong_shares(&mut case.rows, random),
            9 => too_deep(&mut case.rows, random),
            10 => over_whole(&mut case.rows, random),
            number => wrong_row(case, number, random),
        }
    }
}

/// Some row's identifier or parent, half of the time of one with children. Where its identifier is
/// now another, half of the time they follow it.
fn wrong_row(case: &mut Case, number: u32, random: &mut Random) {
    let before: Vec<u32> = case.rows.iter().map(|row| row.identifier).collect();
    let has_children = |row: &usize| case.rows.iter().any(|r| r.parent == before[*row]);
    let parents: Vec<usize> = (1..before.len()).filter(has_children).collect();
    let place = match parents.is_empty() || random.one_in(2) {
        true => random.below(MOST_EVENTS),
        // Places count from the first class.
        false => random.pick(&parents) - 1,
    };
    damage(case, number, place, random);
    let names = case.rows.iter().map(|row| row.identifier).zip(before);
    let renamed: Vec<(u32, u32)> = names.filter(|(new, old)| new != old).collect();
    if random.one_in(2) {
        for row in &mut case.rows[1..] {
            let follows = renamed.iter().find(|(_, old)| row.parent == *old);
            row.parent = follows.map_or(row.parent, |(new, _)| *new);
        }
    }
}

/// A share of some row, or of all that have its parent: their sum can be over 32 bits.
fn wrong_shares(rows: &mut [Row], random: &mut Random) {
    let beyond = random.between(WHOLE as usize + 1, u32::MAX as usize) as u32;
    let share = random.pick(&[0, WHOLE + 1, u32::MAX, beyond]);
    let row = random.between(1, rows.len() - 1);
    let parent = rows[row].parent;
    let alone = !random.one_in(4);
    for (place, other) in rows.iter_mut().enumerate().skip(1) {
        if place == row || (!alone && other.parent == parent) {
            other.share = share;
        }
    }
}

/// Puts a row in at any place below its parent. Gives that place.
fn put_in_row(rows: &mut Vec<Row>, parent: usize, share: u32, random: &mut Random) -> usize {
    let place = random.between(parent + 1, rows.len());
    let row = Row {
        identifier: fresh_identifier(rows, random),
        parent: rows[parent].identifier,
        share,
    };
    rows.insert(place, row);
    place
}

/// A chain under some row, which passes the greatest depth by one or several.
fn too_deep(rows: &mut Vec<Row>, random: &mut Random) {
    let mut above = random.below(rows.len());
    for _ in 0..random.between(MOST_DEPTH, CHAIN) {
        above = put_in_row(rows, above, any_share(random), random);
    }
}

/// Further children for some row, so that their shares come to 841 or more.
fn over_whole(rows: &mut Vec<Row>, random: &mut Random) {
    let parent = random.below(rows.len());
    let identifier = rows[parent].identifier;
    let children = rows[1..].iter().filter(|row| row.parent == identifier);
    let given: u64 = children.map(|row| u64::from(row.share)).sum();
    let more = (random.below(2) * random.below(900)) as u32;
    let mut wanted = (WHOLE + 1).saturating_sub(given.min(u64::from(WHOLE)) as u32) + more;
    while wanted > 0 {
        let share = wanted.min(random.pick(&[WHOLE, WHOLE / 2 + 1]));
        put_in_row(rows, parent, share, random);
        wanted -= share;
    }
}

#[cfg(test)]
mod tests {
    use super::*;
    use crate::{DEFAULT_LISTS, DEFAULT_SEED, LISTS_A_TABLE};
    use second::MOST_ROWS;

    const TABLES: usize = DEFAULT_LISTS / LISTS_A_TABLE;

    fn cases(wanted: fn(&Kind) -> bool) -> Vec<Case> {
        let case = |number: usize| {
            let kind = ROUND[number % ROUND.len()];
            let mut random = Random::new(DEFAULT_SEED, number as u64);
            wanted(&kind).then(|| Case {
                rows: accepted_rows(kind, &mut random),
                events: Vec::new(),
            })
        };
        (0..TABLES).filter_map(case).collect()
    }

    #[test]
    fn tables_are_accepted_before_any_damage() {
        let accepted = cases(|_| true);
        assert_eq!(accepted.len(), TABLES);
        assert!(accepted.iter().all(|case| case.answer().number == 0));
    }

    #[test]
    fn rows_stand_in_the_order_of_the_tree_or_not() {
        // In the order of the tree a class stands below its parent or beside the last one there.
        let in_order = |case: &&Case| {
            let rows = &case.rows;
            let mut path = vec![rows[0].identifier];
            rows[1..].iter().all(|row| {
                let depth = path.iter().position(|above| *above == row.parent);
                path.truncate(depth.map_or(0, |depth| depth + 1));
                path.push(row.identifier);
                depth.is_some()
            })
        };
        let cases = cases(|kind| matches!(kind, Accepted(_)));
        let count = cases.iter().filter(in_order).count();
        assert!(count > 50 && cases.len() - count > 100, "{count}");
    }

    #[test]
    fn steep_tables_reach_the_greatest_depth_and_every_edge() {
        let steep = cases(|kind| matches!(kind, Steep));
        let shares: BTreeSet<u32> = steep
            .iter()
            .flat_map(|case| case.rows.iter().map(|row| row.share))
            .collect();
        assert!([1, 2, 83, 84, 85, 839, 840]
            .iter()
            .all(|s| shares.contains(s)));
        assert!(steep.iter().all(|case| case.rows.len() > MOST_DEPTH));
    }

    #[test]
    fn faulty_tables_have_room_and_nearly_all_are_refused() {
        let mut refused = 0;
        for number in 0..2000 {
            let mut random = Random::new(DEFAULT_SEED, number);
            let mut case = Case {
                rows: accepted_rows(Refused, &mut random),
                events: Vec::new(),
            };
            put_in_faults(&mut case, &mut random);
            assert!((2..=MOST_ROWS).contains(&case.rows.len()));
            refused += usize::from(case.answer().number != 0);
        }
        assert!(refused > 1950, "{refused}");
    }

    #[test]
    fn every_fault_of_a_text_takes_its_turn() {
        let texts = (0..TABLES).filter(|number| matches!(ROUND[number % ROUND.len()], Text));
        let turns: Vec<usize> = texts.map(turn).collect();
        assert!(turns.iter().enumerate().all(|(place, turn)| place == *turn));
        assert!(turns.len() > 10 * TEXT_FAULTS.len());
    }

    #[test]
    fn the_same_seed_gives_the_same_files_and_every_table_is_alone() {
        for number in (0..2 * ROUND.len()).filter(|n| n % ROUND.len() < ROUND.len() - 1) {
            let files = |seed| table_trial(seed, number).files;
            assert_eq!(files(1), files(1));
            assert_ne!(files(1), files(2));
            assert!(files(1).alone && files(1).events.is_none());
        }
    }
}
