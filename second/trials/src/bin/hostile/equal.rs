//! Lists of equal finishes at the limits, in which packets arrive against the order of rows.

use second::MOST_EVENTS;
use trials::{even_table, sending, Case, Event, Row, FINISH};

/// Classes under each row, level by level: as many as there may be, then paths of depth 8.
const FANS: [&[usize]; 3] = [&[255], &[4, 1, 1, 1, 1, 1, 1, 1], &[3, 1, 3, 1, 3, 1, 1, 1]];

/// Each list over each table, and what it is.
pub fn equal_finishes() -> Vec<(String, Case)> {
    FANS.into_iter().flat_map(over_table).collect()
}

fn over_table(fans: &[usize]) -> [(String, Case); 4] {
    let rows = even_table(fans);
    let round = round(&rows);
    let lists = [
        ("one round", finished(&round, round.len())),
        ("full", finished(&round, MOST_EVENTS / 2)),
        ("back and forth", finished(&turned(&round), MOST_EVENTS / 2)),
        ("late", late(&round)),
    ];
    lists.map(|(name, events)| {
        let rows = rows.clone();
        (format!("{fans:?}, {name}"), Case { rows, events })
    })
}

/// A packet for each class, from the last to the first, all of one length.
fn round(rows: &[Row]) -> Vec<Event> {
    let classes = sending(rows).into_iter().rev();
    classes.map(|class| Event { class, length: 100 }).collect()
}

/// The round and its reverse. Every other class has packets of twice the length: a short one
/// goes before a long one that arrived first, and two of them can be equal to it.
fn turned(round: &[Event]) -> Vec<Event> {
    let mut back = round.to_vec();
    let others = back.iter_mut().skip(1).step_by(2);
    others.for_each(|event| event.length *= 2);
    let forth = back.iter().copied().rev().collect();
    [back, forth].concat()
}

/// So many of these packets, over and over, then all are finished.
pub fn finished(packets: &[Event], count: usize) -> Vec<Event> {
    let mut events: Vec<Event> = packets.iter().copied().cycle().take(count).collect();
    events.resize(2 * count, FINISH);
    events
}

/// The round at the end of a full list, where its packets have the greatest places.
fn late(round: &[Event]) -> Vec<Event> {
    let end = finished(round, round.len());
    let before = [round[0], FINISH].repeat((MOST_EVENTS - end.len()) / 2);
    [before, end].concat()
}

#[cfg(test)]
mod tests {
    use second::MOST_ROWS;

    use super::*;

    #[test]
    fn the_place_decides_often_and_not_only_for_the_lowest_row() {
        for (name, case) in equal_finishes() {
            let choices = case.inside().expect("the list is accepted").choices;
            let wanted = match name.ends_with("late") {
                true => 1,
                false => (case.events.len() as u64 / 25).max(1),
            };
            assert!(choices.not_lowest >= wanted, "{name}");
            let lowest = choices.by_place - choices.not_lowest;
            assert!(
                lowest >= wanted || !name.ends_with("back and forth"),
                "{name}"
            );
        }
    }

    #[test]
    fn tables_and_lists_reach_the_limits() {
        let cases = equal_finishes();
        let lengths = cases.iter().map(|(_, case)| case.events.len());
        assert_eq!(lengths.filter(|length| *length == MOST_EVENTS).count(), 9);
        assert_eq!(cases[0].1.rows.len(), MOST_ROWS);
    }
}
