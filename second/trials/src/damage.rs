//! Damages an accepted table or list so that it is refused with a given number.

use crate::{
    any_share, fresh_identifier, same_on_air, sending, unknown_identifier, Case, Event, Random,
    Row, FINISH,
};
use second::{MOST_BYTES, MOST_DEPTH, MOST_EVENTS, MOST_IDENTIFIER, MOST_ROWS, WHOLE};

/// Rows that a table has at most before further ones are put in.
const ROOM: usize = 240;

/// All refusals but 3, which only a caller with short slices meets, in the order of looking.
pub const NUMBERS: [u32; 14] = [1, 2, 4, 15, 5, 6, 7, 8, 9, 10, 11, 12, 13, 14];

/// Damages the case; `place` may be any number and says where, as far as there is a choice.
pub fn damage(case: &mut Case, number: u32, place: usize, random: &mut Random) {
    match number {
        1 => wrong_rows(case, random),
        2 => many_events(case, random),
        4 => no_identifier(case, place, random),
        5 => doubled(case, place, random),
        6 => root(case, random),
        7 => parent(case, place, random),
        8 => share(case, place, random),
        9 => too_deep(case, place, random),
        10 => over_whole(case, place, random),
        11 => no_class(case, place, random),
        12 => not_sending(case, place, random),
        13 => length(case, place, random),
        14 => idle_finish(case, place),
        _ => large_identifier(case, place, random),
    }
}

/// Two damages, half of the time at the same place.
pub fn damage_twice(case: &mut Case, random: &mut Random) {
    let place = random.below(MOST_EVENTS);
    let other = match random.one_in(2) {
        true => place,
        false => random.below(MOST_EVENTS),
    };
    let mut turns = [random.below(NUMBERS.len()), random.below(NUMBERS.len())];
    // The damage to identifiers comes after what needs them, and the one that takes rows away last.
    turns.sort_by(|a, b| b.cmp(a));
    damage(case, NUMBERS[turns[0]], place, random);
    if turns[0] != turns[1] {
        damage(case, NUMBERS[turns[1]], other, random);
    }
}

/// The row of some class.
fn class_row(case: &Case, place: usize) -> usize {
    1 + place % (case.rows.len() - 1)
}

fn random_row(case: &Case, parent: u32, random: &mut Random) -> Row {
    Row {
        identifier: fresh_identifier(&case.rows, random),
        parent,
        share: any_share(random),
    }
}

fn wrong_rows(case: &mut Case, random: &mut Random) {
    let rows = match random.below(4) {
        0 => 0,
        1 => 1,
        2 => MOST_ROWS + 1,
        _ => random.between(MOST_ROWS + 1, 300),
    };
    case.rows.truncate(rows);
    while case.rows.len() < rows {
        let row = random_row(case, case.rows[0].identifier, random);
        case.rows.push(row);
    }
}

fn many_events(case: &mut Case, random: &mut Random) {
    let events = MOST_EVENTS + 1 + random.below(2) * random.below(100);
    let class = random.pick(&case.rows).identifier;
    while case.events.len() < events {
        let length = random.below(2) as u32;
        let class = class * length;
        case.events.push(Event { class, length });
    }
}

fn no_identifier(case: &mut Case, place: usize, random: &mut Random) {
    let row = match random.one_in(4) {
        true => 0,
        false => class_row(case, place),
    };
    case.rows[row].identifier = 0;
}

/// At times it is one on the air with the identifier of a row.
fn large_identifier(case: &mut Case, place: usize, random: &mut Random) {
    let row = match random.one_in(4) {
        true => 0,
        false => class_row(case, place),
    };
    let some_row = random.pick(&case.rows).identifier;
    case.rows[row].identifier = match random.below(8) {
        0 | 1 => MOST_IDENTIFIER + 1,
        2 | 3 => u32::MAX,
        // Nothing is left of it on the air.
        4 => same_on_air(0, random),
        5 => random.between(MOST_IDENTIFIER as usize + 1, u32::MAX as usize) as u32,
        _ => same_on_air(some_row, random),
    };
}

fn doubled(case: &mut Case, place: usize, random: &mut Random) {
    let row = class_row(case, place);
    case.rows[row].identifier = case.rows[random.below(row)].identifier;
}

fn root(case: &mut Case, random: &mut Random) {
    let parents = [0, 1, case.rows[0].identifier, case.rows[1].identifier];
    let shares = [0, 1, WHOLE, u32::MAX];
    // One of the two is not 0.
    let first = random.below(2);
    case.rows[0].parent = parents[random.between(first, 3)];
    case.rows[0].share = shares[random.between(1 - first, 3)];
}

fn parent(case: &mut Case, place: usize, random: &mut Random) {
    let row = class_row(case, place);
    let own_or_later = random.between(row, case.rows.len() - 1);
    case.rows[row].parent = match random.below(4) {
        0 => 0,
        1 => case.rows[row].identifier,
        2 => case.rows[own_or_later].identifier,
        _ => unknown_identifier(&case.rows, random),
    };
}

/// Past the whole, one that divides 705,600, and some far beyond.
const NEAR_AND_FAR: [u32; 6] = [WHOLE + 2, 882, 1023, 2 * WHOLE, WHOLE * WHOLE, u32::MAX];

fn share(case: &mut Case, place: usize, random: &mut Random) {
    let row = class_row(case, place);
    case.rows[row].share = match random.below(6) {
        0 | 1 => 0,
        2 => WHOLE + 1,
        3 => random.pick(&NEAR_AND_FAR),
        4 => random.between(WHOLE as usize + 1, u32::MAX as usize) as u32,
        // In its low bits it is allowed.
        _ => any_share(random) | 1 << random.between(10, 31),
    };
}

fn depth(rows: &[Row], row: usize) -> usize {
    let above = |row: &usize| {
        let parent = rows[*row].parent;
        rows.iter().position(|r| r.identifier == parent)
    };
    std::iter::successors(Some(row), above).count() - 1
}

/// Puts a chain of classes under some row, down to one level too many.
fn too_deep(case: &mut Case, place: usize, random: &mut Random) {
    case.rows.truncate(ROOM);
    let at = 1 + place % case.rows.len();
    let above = random.below(at);
    let mut parent = case.rows[above].identifier;
    for step in 0..=MOST_DEPTH - depth(&case.rows, above) {
        let row = random_row(case, parent, random);
        parent = row.identifier;
        case.rows.insert(at + step, row);
    }
}

/// Gives some row further children, so that their shares are over 840 together.
fn over_whole(case: &mut Case, place: usize, random: &mut Random) {
    case.rows.truncate(ROOM);
    let can_have = |row: &usize| depth(&case.rows, *row) < MOST_DEPTH;
    let rows: Vec<usize> = (0..case.rows.len()).filter(can_have).collect();
    let parent = case.rows[rows[place % rows.len()]].identifier;
    let children = case.rows.iter().filter(|r| r.parent == parent);
    let given: u32 = children.map(|r| r.share).sum();
    let mut wanted = WHOLE + 1 - given + (random.below(2) * random.below(500)) as u32;
    while wanted > 0 {
        let mut row = random_row(case, parent, random);
        row.share = wanted.min(WHOLE);
        wanted -= row.share;
        case.rows.push(row);
    }
}

/// The place of some arrival; puts one in if there is none.
fn arrival(case: &mut Case, place: usize) -> usize {
    let is_arrival = |place: &usize| case.events[*place].class != 0;
    let arrivals: Vec<usize> = (0..case.events.len()).filter(is_arrival).collect();
    if arrivals.is_empty() {
        let class = sending(&case.rows)[0];
        case.events.insert(0, Event { class, length: 100 });
        return 0;
    }
    arrivals[place % arrivals.len()]
}

fn no_class(case: &mut Case, place: usize, random: &mut Random) {
    let event = arrival(case, place);
    case.events[event].class = unknown_identifier(&case.rows, random);
}

fn not_sending(case: &mut Case, place: usize, random: &mut Random) {
    let event = arrival(case, place);
    let sending = sending(&case.rows);
    let names = case.rows.iter().map(|r| r.identifier);
    let others: Vec<u32> = names.filter(|i| !sending.contains(i)).collect();
    let root = case.rows[0].identifier;
    case.events[event].class = match random.one_in(3) {
        true => root,
        false => random.pick(&others),
    };
}

fn length(case: &mut Case, place: usize, random: &mut Random) {
    let event = arrival(case, place);
    let some = place % case.events.len();
    let one_more = MOST_BYTES + 1;
    let length = &mut case.events[event].length;
    match random.below(10) {
        0 => *length = 0,
        1..=4 => *length = one_more,
        5 => *length = u32::MAX,
        6 => *length = random.between(one_more as usize, u32::MAX as usize) as u32,
        // In 16, 24 or 31 bits it would still be accepted.
        7 => *length += 1 << random.pick(&[16, 24, 31]),
        // A finish with a length.
        8 => case.events[event].class = 0,
        _ if case.events[some] == FINISH => case.events[some].length = 1,
        _ => case.events[some].length += MOST_BYTES,
    }
}

/// Puts a finish in where no packet is held.
fn idle_finish(case: &mut Case, place: usize) {
    let mut idle = vec![0];
    let mut held = 0;
    for (place, event) in case.events.iter().enumerate() {
        match *event {
            FINISH => held -= 1,
            _ => held += 1,
        }
        if held == 0 {
            idle.push(place + 1);
        }
    }
    case.events.insert(idle[place % idle.len()], FINISH);
}

#[cfg(test)]
mod tests {
    use super::*;
    use crate::{random_events, random_table, Shape};

    const SHAPES: [Shape; 6] = [
        Shape::Flat,
        Shape::Chain,
        Shape::Deep,
        Shape::Any,
        Shape::Two,
        Shape::Full,
    ];

    fn accepted(list: u64) -> (Case, Random) {
        let mut random = Random::new(3, list);
        let rows = random_table(random.pick(&SHAPES), 840, &mut random);
        let most = random.below(100);
        let events = random_events(&rows, most, random.one_in(2), &mut random);
        (Case { rows, events }, random)
    }

    #[test]
    fn each_damage_gives_the_refusal_it_aims_at() {
        for number in NUMBERS {
            for list in 0..if number == 2 { 10 } else { 300 } {
                let (mut case, mut random) = accepted(list);
                assert_eq!(case.answer().number, 0);
                damage(&mut case, number, random.below(1000), &mut random);
                assert_eq!(case.answer().number, number);
            }
        }
    }

    #[test]
    fn refusals_come_at_many_places() {
        for number in NUMBERS.into_iter().filter(|n| ![1, 2, 6].contains(n)) {
            let place = |list| {
                let (mut case, mut random) = accepted(list);
                damage(&mut case, number, random.below(1000), &mut random);
                case.answer().place
            };
            let places: std::collections::BTreeSet<u32> = (0..300).map(place).collect();
            assert!(places.len() > 10, "{number} at {places:?}");
        }
    }

    #[test]
    fn two_damages_give_some_refusal() {
        let mut numbers = std::collections::BTreeSet::new();
        for list in 0..1000 {
            let (mut case, mut random) = accepted(list);
            damage_twice(&mut case, &mut random);
            numbers.insert(case.answer().number);
        }
        assert!(!numbers.contains(&0) && numbers.len() > 10);
    }
}
