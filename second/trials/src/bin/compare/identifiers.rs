//! Counts accepted lists with the largest identifier, and lists refused for what the modem would cut.

use std::ops::AddAssign;

use crate::tally::too_few;
use second::{Answer, MOST_IDENTIFIER};
use trials::Case;

/// What is counted, and how many lists of it are wanted in a default run.
const KINDS: [(&str, u64); 6] = [
    ("accepted with identifier 65535", 120),
    ("accepted with a packet for class 65535", 25),
    ("refused for identifier 65536", 8),
    ("refused for identifier 4294967295", 8),
    ("refused for an identifier with another row's low bits", 10),
    ("refused for a class with a row's low bits", 12),
];

#[derive(Clone, Copy, Debug, Default, PartialEq, Eq)]
pub struct Identifiers([u64; KINDS.len()]);

impl Identifiers {
    pub fn add_accepted(&mut self, case: &Case) {
        let of_row = case.rows.iter().any(|r| r.identifier == MOST_IDENTIFIER);
        let of_packet = case.events.iter().any(|e| e.class == MOST_IDENTIFIER);
        self.add([of_row, of_packet, false, false, false, false]);
    }

    pub fn add_refused(&mut self, case: &Case, refusal: Answer) {
        let place = refusal.place as usize;
        let with_low_bits = |number: u32| {
            let low = number & 0xffff;
            case.rows.iter().any(|r| r.identifier == low)
        };
        match refusal.number {
            15 => {
                let large = case.rows[place].identifier;
                let one_more = large == MOST_IDENTIFIER + 1;
                let largest = large == u32::MAX;
                let as_another = with_low_bits(large);
                self.add([false, false, one_more, largest, as_another, false]);
            }
            11 => {
                let as_a_row = with_low_bits(case.events[place].class);
                self.add([false, false, false, false, false, as_a_row]);
            }
            _ => {}
        }
    }

    fn add(&mut self, seen: [bool; KINDS.len()]) {
        *self += Identifiers(seen.map(u64::from));
    }

    pub fn text(&self) -> String {
        let kinds = KINDS.iter().zip(self.0);
        let kinds: Vec<String> = kinds
            .map(|((name, _), count)| format!("{name}: {count}"))
            .collect();
        format!("lists {}\n", kinds.join(", "))
    }

    /// Sentences on what came up too seldom.
    pub fn shortages(&self) -> Vec<String> {
        let kinds = KINDS.iter().zip(self.0);
        kinds
            .filter_map(|((name, wanted), count)| {
                too_few(&format!("a list {name}"), count, *wanted)
            })
            .collect()
    }
}

impl AddAssign for Identifiers {
    fn add_assign(&mut self, more: Identifiers) {
        for (count, more) in self.0.iter_mut().zip(more.0) {
            *count += more;
        }
    }
}

#[cfg(test)]
mod tests {
    use super::*;
    use trials::{even_table, Event};

    /// Classes 2 and 3, the second of which gets this identifier, and a packet for a class.
    fn counted(identifier: u32, class: u32) -> [u64; KINDS.len()] {
        let mut rows = even_table(&[2]);
        rows[2].identifier = identifier;
        let events = vec![Event { class, length: 1 }];
        let case = Case { rows, events };
        let mut identifiers = Identifiers::default();
        match case.inside() {
            Ok(_) => identifiers.add_accepted(&case),
            Err(refusal) => identifiers.add_refused(&case, refusal),
        }
        identifiers.0
    }

    #[test]
    fn each_kind_is_counted() {
        assert_eq!(counted(3, 3), [0, 0, 0, 0, 0, 0]);
        assert_eq!(counted(65_535, 2), [1, 0, 0, 0, 0, 0]);
        assert_eq!(counted(65_535, 65_535), [1, 1, 0, 0, 0, 0]);
        assert_eq!(counted(65_536, 2), [0, 0, 1, 0, 0, 0]);
        assert_eq!(counted(u32::MAX, 2), [0, 0, 0, 1, 0, 0]);
        assert_eq!(counted(65_538, 2), [0, 0, 0, 0, 1, 0]);
        assert_eq!(counted(3, 65_538), [0, 0, 0, 0, 0, 1]);
        assert_eq!(counted(3, 65_540), [0, 0, 0, 0, 0, 0]);
        assert_eq!(counted(2, 65_538), [0, 0, 0, 0, 0, 0]);
    }

    #[test]
    fn what_comes_up_too_seldom_is_named() {
        let mut enough = Identifiers(KINDS.map(|(_, wanted)| wanted));
        assert!(enough.shortages().is_empty());
        enough.0[4] -= 1;
        assert_eq!(enough.shortages().len(), 1);
        assert_eq!(Identifiers::default().shortages().len(), KINDS.len());
    }
}
