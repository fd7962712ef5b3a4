//! Lists of events for a live box, with refused ones among them.

use second::live::MOST_HELD;
use second::MOST_BYTES;
use trials::{random_events, sending, unknown_identifier, Event, Random, Row, FINISH};

/// Lengths that no packet has; in 16 or 31 bits some of them would be those of one.
const NO_LENGTHS: [u32; 6] = [
    0,
    MOST_BYTES + 1,
    (1 << 16) + 100,
    (1 << 31) + 100,
    u32::MAX,
    10_000,
];

/// A list of up to so many events, and refused ones among them.
pub fn mixed(rows: &[Row], most: usize, random: &mut Random) -> Vec<Event> {
    let drains = random.one_in(2);
    let plain = random_events(rows, most, drains, random);
    let chance = random.pick(&[2, 4, 10]);
    let mut events = Vec::new();
    let mut held = 0;
    for event in plain {
        while random.one_in(chance) {
            events.push(refused(rows, held, random));
        }
        match event {
            FINISH => held -= 1,
            _ => held += 1,
        }
        events.push(event);
    }
    if drains {
        events.extend([FINISH, FINISH]);
    }
    events
}

/// One that is refused with 11, 12 or 13, or with 14 where nothing is held.
fn refused(rows: &[Row], held: usize, random: &mut Random) -> Event {
    let any = |random: &mut Random| random.between(0, 10_000) as u32;
    match random.below(4) {
        0 => Event {
            class: unknown_identifier(rows, random),
            length: any(random),
        },
        1 => Event {
            class: not_sending(rows, random),
            length: any(random),
        },
        2 if held == 0 => FINISH,
        2 => Event {
            class: 0,
            length: random.pick(&NO_LENGTHS[1..]),
        },
        _ => Event {
            class: random.pick(&sending(rows)),
            length: random.pick(&NO_LENGTHS),
        },
    }
}

/// The root or a class with classes below it.
fn not_sending(rows: &[Row], random: &mut Random) -> u32 {
    let sending = sending(rows);
    let all = rows.iter().map(|row| row.identifier);
    let others: Vec<u32> = all.filter(|class| !sending.contains(class)).collect();
    random.pick(&others)
}

/// Packets until there is no room and some more, some finishes, and again.
pub fn filling(rows: &[Row], random: &mut Random) -> Vec<Event> {
    let classes = sending(rows);
    let mut events = Vec::new();
    let mut room = MOST_HELD;
    for _ in 0..random.between(2, 6) {
        for _ in 0..room + random.between(0, 4) {
            events.push(packet(&classes, random));
        }
        if random.one_in(2) {
            events.push(refused(rows, MOST_HELD, random));
        }
        room = random.pick(&[1, 1, 2, 3, 20, MOST_HELD]);
        events.extend(vec![FINISH; room]);
    }
    events
}

/// Packets and finishes by turns, and refused ones among them, whatever is held.
pub fn restless(rows: &[Row], most: usize, random: &mut Random) -> Vec<Event> {
    let classes = sending(rows);
    let event = |_| match random.below(5) {
        0 | 1 => packet(&classes, random),
        2 | 3 => FINISH,
        _ => {
            let held = random.below(2);
            refused(rows, held, random)
        }
    };
    (0..most).map(event).collect()
}

fn packet(classes: &[u32], random: &mut Random) -> Event {
    let length = match random.below(3) {
        0 => 1,
        1 => MOST_BYTES as usize,
        _ => random.between(1, MOST_BYTES as usize),
    };
    Event {
        class: random.pick(classes),
        length: length as u32,
    }
}

#[cfg(test)]
mod tests {
    use std::collections::BTreeSet;

    use super::*;
    use crate::states::state_after;
    use second::live::event;
    use trials::{even_table, random_table, SHAPES};

    /// What is answered to a list from a fresh state.
    fn numbers(rows: &[Row], events: &[Event]) -> Vec<u32> {
        let mut words = state_after(rows, &[]);
        let answered = |Event { class, length }: &Event| event(&mut words, *class, *length);
        let answers = events.iter().map(answered);
        answers.map(|answer| answer.answer.number).collect()
    }

    fn lists(list: fn(&[Row], usize, &mut Random) -> Vec<Event>) -> BTreeSet<u32> {
        let numbers = (0..100).flat_map(|number| {
            let mut random = Random::new(3, number);
            let rows = random_table(random.pick(&SHAPES), 840, &mut random);
            let events = list(&rows, 50, &mut random);
            numbers(&rows, &events)
        });
        numbers.collect()
    }

    #[test]
    fn lists_have_refused_events_of_each_kind() {
        let all = BTreeSet::from([0, 11, 12, 13, 14]);
        assert_eq!(lists(mixed), all);
        assert_eq!(lists(restless), all);
    }

    #[test]
    fn there_is_no_room_at_times() {
        let rows = even_table(&[3]);
        for number in 0..10 {
            let events = filling(&rows, &mut Random::new(number, 0));
            let numbers = numbers(&rows, &events);
            let full = numbers.iter().position(|number| *number == 22);
            let taken = full.map(|full| numbers[full..].iter().filter(|n| **n == 0).count());
            assert!(taken.is_none_or(|taken| taken > 1));
            assert!(numbers.iter().filter(|number| **number == 0).count() > MOST_HELD);
        }
    }
}
