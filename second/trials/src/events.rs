//! Random event lists that a table accepts.

use std::collections::BTreeSet;

use second::MOST_BYTES;

use crate::{Event, Random, Row, FINISH};

/// The lengths that the worked runs name as accepted, from the shortest to the longest.
pub const EDGES: [u32; 4] = [1, 2048, 2049, MOST_BYTES];

#[derive(Clone, Copy)]
enum Manner {
    /// Some packets for one class, then some finishes.
    Bursts,
    /// Few packets, then finishes until the line is empty.
    Idle,
    /// A packet for each class, then some finishes.
    Rounds,
    /// Two packets for each class, then arrivals and finishes in turn.
    Backlog,
    /// Few classes for a while, then others.
    Few,
    /// Rounds from the last class to the first.
    Reversed,
    /// Rounds, each in an order of its own.
    Shuffled,
}

#[derive(Clone, Copy)]
enum Lengths {
    Same(u32),
    /// Once, twice or three times this.
    Multiples(u32),
    /// One that goes with the class.
    OfClass,
    /// Any of `EDGES`.
    Edges,
    Tiny,
    Short,
    Any,
}

/// The identifiers of the classes that packets are for.
pub fn sending(rows: &[Row]) -> Vec<u32> {
    let parents: BTreeSet<u32> = rows.iter().map(|r| r.parent).collect();
    let classes = rows.iter().skip(1).map(|r| r.identifier);
    classes.filter(|c| !parents.contains(c)).collect()
}

/// A list of about `most` events, never more. It ends with the line empty if it drains,
/// otherwise it has exactly so many events and mostly ends with packets held.
pub fn random_events(rows: &[Row], most: usize, drains: bool, random: &mut Random) -> Vec<Event> {
    let manners = [
        Manner::Bursts,
        Manner::Idle,
        Manner::Rounds,
        Manner::Backlog,
        Manner::Few,
        Manner::Reversed,
        Manner::Shuffled,
    ];
    let manner = random.pick(&manners);
    let mut growing = Growing {
        sending: sending(rows),
        lengths: random_lengths(manner, random),
        events: Vec::new(),
        held: 0,
        most,
        drains,
    };
    let burst = random.between(1, 12);
    match manner {
        Manner::Backlog => (0..2).for_each(|_| growing.round(random)),
        Manner::Reversed => growing.sending.reverse(),
        _ => {}
    }
    while growing.has_room() {
        growing.step(manner, burst, random);
    }
    if drains {
        growing.finish(usize::MAX);
    }
    growing.events
}

/// Rounds have packets of one length more often than not, so that tags are equal. Where
/// they are not in the order of rows the lengths always are such that tags can be equal.
fn random_lengths(manner: Manner, random: &mut Random) -> Lengths {
    let same = Lengths::Same(random.pick(&[1, 64, 840, 1500, 2048, 2049, MOST_BYTES]));
    let multiples = Lengths::Multiples(random.pick(&[1, 64, 420, 683, MOST_BYTES / 3]));
    match manner {
        Manner::Rounds if random.one_in(2) => return same,
        Manner::Reversed | Manner::Shuffled => return random.pick(&[same, multiples]),
        _ => {}
    }
    let kinds = [
        same,
        Lengths::OfClass,
        Lengths::Edges,
        Lengths::Tiny,
        Lengths::Short,
        Lengths::Any,
    ];
    random.pick(&kinds)
}

struct Growing {
    sending: Vec<u32>,
    lengths: Lengths,
    events: Vec<Event>,
    held: usize,
    most: usize,
    drains: bool,
}

impl Growing {
    /// Is there room for an arrival, and for all finishes if the list drains?
    fn has_room(&self) -> bool {
        let finishes = if self.drains { self.held + 1 } else { 0 };
        self.events.len() + finishes < self.most
    }

    fn arrive(&mut self, class: u32, random: &mut Random) {
        if self.has_room() {
            let length = self.length(class, random);
            self.events.push(Event { class, length });
            self.held += 1;
        }
    }

    /// So many finishes, or fewer if the line is empty or the list full before.
    fn finish(&mut self, count: usize) {
        let room = self.most - self.events.len();
        let count = count.min(self.held).min(room);
        self.events.extend(vec![FINISH; count]);
        self.held -= count;
    }

    fn round(&mut self, random: &mut Random) {
        for class in self.sending.clone() {
            self.arrive(class, random);
        }
    }

    /// Begins with an arrival, so that the list grows.
    fn step(&mut self, manner: Manner, burst: usize, random: &mut Random) {
        let classes = self.sending.len();
        match manner {
            Manner::Bursts => {
                let class = random.pick(&self.sending);
                (0..random.between(1, burst)).for_each(|_| self.arrive(class, random));
                self.finish(random.below(burst + 1));
            }
            Manner::Idle => {
                for _ in 0..random.between(1, 4) {
                    let class = random.pick(&self.sending);
                    self.arrive(class, random);
                }
                self.finish(self.held);
            }
            Manner::Rounds | Manner::Reversed | Manner::Shuffled => {
                if matches!(manner, Manner::Shuffled) {
                    random.shuffle(&mut self.sending);
                }
                self.round(random);
                self.finish(random.between(classes.div_ceil(2), classes + 1));
            }
            Manner::Backlog => {
                let class = random.pick(&self.sending);
                self.arrive(class, random);
                self.finish(1);
            }
            Manner::Few => self.few(random),
        }
    }

    fn few(&mut self, random: &mut Random) {
        let count = random.between(1, 3);
        let classes: Vec<u32> = (0..count).map(|_| random.pick(&self.sending)).collect();
        for _ in 0..random.between(5, 25) {
            self.arrive(random.pick(&classes), random);
            self.finish(random.below(3));
        }
    }

    fn length(&self, class: u32, random: &mut Random) -> u32 {
        let most = match self.lengths {
            Lengths::Same(length) => return length,
            Lengths::Multiples(unit) => return unit * random.between(1, 3) as u32,
            // Spread over all lengths, for identifiers that are counted up as well.
            Lengths::OfClass => return 1 + class.wrapping_mul(7919) % MOST_BYTES,
            Lengths::Edges => return random.pick(&EDGES),
            Lengths::Tiny => 3,
            Lengths::Short => 64,
            Lengths::Any => MOST_BYTES,
        };
        random.between(1, most as usize) as u32
    }
}

#[cfg(test)]
mod tests {
    use std::collections::BTreeMap;

    use super::*;
    use crate::{random_table, Case, Shape};

    fn cases(drains: bool) -> impl Iterator<Item = Case> {
        (0..400).map(move |list| {
            let mut random = Random::new(2, list);
            let shape = random.pick(&[Shape::Deep, Shape::Any, Shape::Even, Shape::Full]);
            let rows = random_table(shape, 7, &mut random);
            let most = random.below(300);
            let events = random_events(&rows, most, drains, &mut random);
            assert!(events.len() <= most);
            assert!(drains || events.len() == most);
            Case { rows, events }
        })
    }

    /// The packets held at the end, and how often the line ran empty.
    fn held_and_empty(events: &[Event]) -> (usize, usize) {
        let (mut held, mut empty) = (0, 0);
        for event in events {
            match *event {
                FINISH => held -= 1,
                _ => held += 1,
            }
            empty += usize::from(held == 0);
        }
        (held, empty)
    }

    #[test]
    fn every_list_is_accepted() {
        for case in cases(true).chain(cases(false)) {
            assert_eq!(case.answer().number, 0);
        }
    }

    #[test]
    fn a_list_that_drains_ends_with_the_line_empty() {
        assert!(cases(true).all(|case| held_and_empty(&case.events).0 == 0));
        let holds = |case: &Case| held_and_empty(&case.events).0 > 0;
        assert!(cases(false).filter(holds).count() > 200);
    }

    #[test]
    fn the_line_runs_empty_often_in_some_lists() {
        let often = |case: &Case| held_and_empty(&case.events).1 > 20;
        assert!(cases(false).filter(often).count() > 20);
    }

    #[test]
    fn rounds_come_in_row_order_reversed_and_in_other_orders() {
        let mut seen = BTreeMap::new();
        for case in cases(false) {
            let in_rows = sending(&case.rows);
            let events = case.events.iter().map(|event| event.class);
            let first: Vec<u32> = events.take(in_rows.len()).collect();
            let reversed = first.iter().rev().eq(&in_rows);
            let is_round = first.iter().collect::<BTreeSet<_>>() == in_rows.iter().collect();
            if is_round && in_rows.len() > 2 {
                *seen.entry((first == in_rows, reversed)).or_insert(0) += 1;
            }
        }
        assert!(seen.len() == 3 && seen.into_values().all(|lists| lists > 20));
    }

    #[test]
    fn packets_of_all_edges_come_up() {
        let lengths: BTreeSet<u32> = cases(false)
            .flat_map(|case| case.events)
            .map(|event| event.length)
            .collect();
        assert!(EDGES.iter().all(|edge| lengths.contains(edge)));
        assert_eq!(lengths.last(), Some(&MOST_BYTES));
    }
}
