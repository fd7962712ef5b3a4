//! Counts packets of the lengths at the edges, and lists refused for the first length beyond.

use std::ops::AddAssign;

use crate::tally::too_few;
use second::{Answer, MOST_BYTES};
use trials::{Case, Event, EDGES, FINISH};

/// How many packets of each edge are wanted in a default run, and how many lists refused for
/// one byte more than the longest has.
const WANTED: u64 = 5500;
const WANTED_BEYOND: u64 = 13;

#[derive(Clone, Copy, Debug, Default, PartialEq, Eq)]
pub struct Edges {
    /// All packets of accepted lists, and those of each edge.
    packets: u64,
    of_edge: [u64; EDGES.len()],
    /// Lists refused for a packet of one byte more than the longest has.
    beyond: u64,
}

impl Edges {
    pub fn add_accepted(&mut self, case: &Case) {
        for event in case.events.iter().filter(|event| **event != FINISH) {
            self.packets += 1;
            for (count, edge) in self.of_edge.iter_mut().zip(EDGES) {
                *count += u64::from(event.length == edge);
            }
        }
    }

    pub fn add_refused(&mut self, case: &Case, refusal: Answer) {
        let event = case.events.get(refusal.place as usize);
        let is_beyond = |event: &Event| event.class != 0 && event.length == MOST_BYTES + 1;
        self.beyond += u64::from(refusal.number == 13 && event.is_some_and(is_beyond));
    }

    pub fn text(&self) -> String {
        let of_edge = EDGES.iter().zip(self.of_edge);
        let of_edge: String = of_edge
            .map(|(edge, count)| format!(", of length {edge}: {count}"))
            .collect();
        format!(
            "packets: {}{of_edge}; lists refused for length {}: {}\n",
            self.packets,
            MOST_BYTES + 1,
            self.beyond
        )
    }

    /// Sentences on lengths that came up too seldom.
    pub fn shortages(&self) -> Vec<String> {
        let packets = EDGES.iter().zip(self.of_edge).filter_map(|(edge, count)| {
            too_few(&format!("a packet of length {edge}"), count, WANTED)
        });
        let name = format!("a list refused for length {}", MOST_BYTES + 1);
        packets
            .chain(too_few(&name, self.beyond, WANTED_BEYOND))
            .collect()
    }
}

impl AddAssign for Edges {
    fn add_assign(&mut self, more: Edges) {
        self.packets += more.packets;
        for (count, more) in self.of_edge.iter_mut().zip(more.of_edge) {
            *count += more;
        }
        self.beyond += more.beyond;
    }
}

#[cfg(test)]
mod tests {
    use super::*;
    use trials::even_table;

    /// A packet of each of these lengths for one class, then a finish.
    fn list(lengths: &[u32]) -> Case {
        let arrivals = lengths.iter().map(|length| Event {
            class: 2,
            length: *length,
        });
        Case {
            rows: even_table(&[2]),
            events: arrivals.chain([FINISH]).collect(),
        }
    }

    fn of(case: &Case) -> Edges {
        let mut edges = Edges::default();
        match case.inside() {
            Ok(_) => edges.add_accepted(case),
            Err(refusal) => edges.add_refused(case, refusal),
        }
        edges
    }

    #[test]
    fn packets_of_each_edge_are_counted() {
        let mut edges = of(&list(&[1, 2048, 2049, 9000, 9000, 2, 8999]));
        edges += of(&list(&[1]));
        assert_eq!(
            edges.text(),
            "packets: 8, of length 1: 2, of length 2048: 1, of length 2049: 1, \
             of length 9000: 2; lists refused for length 9001: 0\n"
        );
    }

    #[test]
    fn a_list_counts_as_beyond_for_9001_alone() {
        assert_eq!(of(&list(&[1, 9001, 9001])).beyond, 1);
        for lengths in [&[9002, 9001][..], &[0, 9001], &[u32::MAX]] {
            assert_eq!(of(&list(lengths)), Edges::default());
        }
        let mut finish = list(&[1, 9001]);
        finish.events[1].class = 0;
        assert_eq!(of(&finish), Edges::default());
    }

    #[test]
    fn lengths_that_come_up_too_seldom_are_named() {
        let enough = Edges {
            packets: 0,
            of_edge: [WANTED; EDGES.len()],
            beyond: WANTED_BEYOND,
        };
        assert!(enough.shortages().is_empty());
        for edge in 0..EDGES.len() {
            let mut few = enough;
            few.of_edge[edge] -= 1;
            assert_eq!(few.shortages().len(), 1);
        }
        assert_eq!(Edges::default().shortages().len(), EDGES.len() + 1);
    }
}
