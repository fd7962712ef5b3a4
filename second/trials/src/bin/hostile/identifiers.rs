//! Identifiers at the edges of what the modem sends, rows that would be one on the air, other
//! refusals beside that of such a row, and every identifier that there can be.

use std::collections::BTreeSet;

use second::MOST_IDENTIFIER;
use trials::{Case, Event, Row, FINISH};

/// One more than the largest identifier.
const LARGE: u32 = MOST_IDENTIFIER + 1;

const ROOT: Row = row(1, 0, 0);
const TEN: Row = row(10, 1, 420);
const TOO_LARGE: Row = row(LARGE, 1, 1);

/// Classes of a full table.
const CLASSES: u32 = 255;

/// Each list and what it is.
pub fn all_identifiers() -> Vec<(String, Case)> {
    [
        edges(),
        one_on_air(),
        before_and_after(),
        with_others(),
        each_once(),
    ]
    .concat()
}

const fn row(identifier: u32, parent: u32, share: u32) -> Row {
    Row {
        identifier,
        parent,
        share,
    }
}

const fn packet(class: u32) -> Event {
    Event { class, length: 100 }
}

fn list(name: String, rows: &[Row], class: u32) -> (String, Case) {
    let rows = rows.to_vec();
    let events = vec![packet(class), FINISH];
    (name, Case { rows, events })
}

/// Numbers beside the powers of two, of a class and of the root.
fn edges() -> Vec<(String, Case)> {
    let numbers = (0..32).flat_map(|bit| {
        let power = 1_u32 << bit;
        [power - 1, power, power + 1]
    });
    let both = |number| {
        let class = [ROOT, TEN, row(number, 1, 420)];
        let root = [row(number, 0, 0), row(10, number, 420)];
        [
            list(format!("{number} of a class"), &class, number),
            list(format!("{number} of the root"), &root, 10),
        ]
    };
    let numbers: BTreeSet<u32> = numbers.chain([u32::MAX]).collect();
    numbers.into_iter().flat_map(both).collect()
}

/// A number that is 10 in its low 16 bits as another row's identifier, before and after class 10,
/// as the root's, as a parent and as the class of a packet.
fn one_on_air() -> Vec<(String, Case)> {
    let all = |high: u32| {
        let number = (high << 16) + 10;
        let other = row(number, 1, 420);
        let root = [row(number, 0, 0), row(10, number, 420)];
        let parent = [ROOT, TEN, row(20, number, 420)];
        [
            list(format!("10, {number}"), &[ROOT, TEN, other], 10),
            list(format!("{number}, 10"), &[ROOT, other, TEN], 10),
            list(format!("10 under the root {number}"), &root, 10),
            list(format!("parent {number}"), &parent, 20),
            list(format!("a packet for {number}"), &[ROOT, TEN], number),
        ]
    };
    let highs = [1, 2, 0x100, 0x7fff, 0x8000, 0xffff];
    highs.into_iter().flat_map(all).collect()
}

/// Each other refusal of a row or of the sums, before such a row and after it.
fn before_and_after() -> Vec<(String, Case)> {
    let others = [
        (4, row(0, 1, 1)),
        (5, row(1, 1, 1)),
        (7, row(20, 99, 1)),
        (8, row(20, 1, 841)),
        (10, row(20, 1, 840)),
        (15, row(LARGE + 1, 1, 1)),
    ];
    let both = |(number, other)| {
        let before = [ROOT, TEN, other, TOO_LARGE];
        let after = [ROOT, TEN, TOO_LARGE, other];
        [
            list(format!("{number} before 15"), &before, 10),
            list(format!("15 before {number}"), &after, 10),
        ]
    };
    others.into_iter().flat_map(both).collect()
}

/// Such a row by itself, with another refusal in it, as the root, and before an event's.
fn with_others() -> Vec<(String, Case)> {
    let class = |row| vec![ROOT, TEN, row];
    let root = vec![row(LARGE, 3, 5), row(10, LARGE, 420)];
    let lists = [
        ("15", class(TOO_LARGE), 10),
        ("15 and 7", class(row(LARGE, 99, 1)), 10),
        ("15 and 8", class(row(LARGE, 1, 841)), 10),
        ("15 and 10", class(row(LARGE, 1, 840)), 10),
        ("15 and 5", vec![ROOT, TEN, TOO_LARGE, TOO_LARGE], 10),
        ("15 and 6", root, 10),
        ("15 and 9", too_deep(), 10),
        ("15 and 11", vec![ROOT, TOO_LARGE], 77),
    ];
    let listed = |(name, rows, class): (&str, Vec<Row>, u32)| list(name.to_string(), &rows, class);
    lists.into_iter().map(listed).collect()
}

/// A chain to depth 9, whose last row has too large an identifier.
fn too_deep() -> Vec<Row> {
    let class = |depth: u32| match depth {
        9 => row(LARGE, 9, 840),
        _ => row(depth + 1, depth, 840),
    };
    [ROOT].into_iter().chain((1..=9).map(class)).collect()
}

/// All identifiers, in full tables: a packet for each class, and all finished.
fn each_once() -> Vec<(String, Case)> {
    let table = |first: u32| {
        let classes = first..first + CLASSES;
        let root = if first == 1 { MOST_IDENTIFIER } else { 1 };
        let rows = classes.clone().map(|class| row(class, root, 3));
        let events = classes.map(packet);
        let case = Case {
            rows: [row(root, 0, 0)].into_iter().chain(rows).collect(),
            events: events.chain([FINISH; CLASSES as usize]).collect(),
        };
        (format!("{CLASSES} from {first} on"), case)
    };
    (1..=MOST_IDENTIFIER)
        .step_by(CLASSES as usize)
        .map(table)
        .collect()
}

#[cfg(test)]
mod tests {
    use super::*;

    fn answers(lists: Vec<(String, Case)>) -> Vec<(u32, u32)> {
        let answer = |(_, case): (String, Case)| case.answer();
        let answers = lists.into_iter().map(answer);
        answers
            .map(|answer| (answer.number, answer.place))
            .collect()
    }

    #[test]
    fn numbers_up_to_65535_are_accepted() {
        let of = |number: &str| {
            let named = |name: &String| name.starts_with(&format!("{number} of "));
            let lists = edges().into_iter().filter(|(name, _)| named(name));
            answers(lists.collect())
        };
        assert_eq!(of("65535"), [(0, 0), (0, 0)]);
        for number in ["65536", "65537", "4294967295"] {
            assert_eq!(of(number), [(15, 2), (15, 0)]);
        }
    }

    #[test]
    fn rows_that_would_be_one_on_the_air_are_refused() {
        let expected = [(15, 2), (15, 1), (15, 0), (7, 2), (11, 0)];
        for found in answers(one_on_air()).chunks(expected.len()) {
            assert_eq!(found, expected);
        }
    }

    #[test]
    fn other_refusals_come_before_and_after() {
        let expected: [[(u32, u32); 2]; 6] = [
            [(4, 2), (15, 2)],
            [(5, 2), (15, 2)],
            [(7, 2), (15, 2)],
            [(8, 2), (15, 2)],
            [(15, 3), (15, 2)],
            [(15, 2), (15, 2)],
        ];
        assert_eq!(answers(before_and_after()), expected.concat());
        let expected = [2, 2, 2, 2, 2, 0, 9, 1].map(|place| (15, place));
        assert_eq!(answers(with_others()), expected);
    }

    #[test]
    fn every_identifier_is_looked_up_once() {
        let mut seen = BTreeSet::new();
        for (_, case) in each_once() {
            assert_eq!(case.rows.len(), 256);
            let classes = case.rows[1..].iter().map(|row| row.identifier);
            seen.extend(classes);
            let answer = case.answer();
            assert_eq!((answer.number, answer.count), (0, CLASSES));
        }
        assert_eq!(seen.len(), MOST_IDENTIFIER as usize);
    }
}
