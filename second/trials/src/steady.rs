//! Lists for timing: even tables whose classes mostly have packets waiting, or mostly none.

use second::MOST_BYTES;

use crate::{even_table, sending, Case, Event, Random, FINISH};

/// Packets that wait for each class from the beginning.
const WAITING: usize = 4;

/// A table with this many classes under each row, level by level, and so many events:
/// first some packets for each class, then arrivals and finishes in turn.
pub fn steady_case(fans: &[usize], events: usize) -> Case {
    let rows = even_table(fans);
    let classes = sending(&rows);
    let first = (WAITING * classes.len()).min(events / 2);
    let mut random = Random::new(1, events as u64);
    let event = |place: usize| {
        if place > first && (place - first) % 2 == 1 {
            return FINISH;
        }
        let class = match place < first {
            true => classes[place % classes.len()],
            false => random.pick(&classes),
        };
        let length = random.between(64, MOST_BYTES as usize) as u32;
        Event { class, length }
    };
    let events = (0..events).map(event).collect();
    Case { rows, events }
}

/// A table as above, and so many events by which at most a quarter of the classes, and mostly far
/// fewer, have packets: some arrivals, then some finishes, over and over.
pub fn sparse_case(fans: &[usize], events: usize) -> Case {
    let rows = even_table(fans);
    let classes = sending(&rows);
    let most = classes.len().div_ceil(4);
    let mut random = Random::new(2, events as u64);
    let mut list = Vec::new();
    let mut held = 0;
    while list.len() < events {
        let goal = random.between(1, most);
        for _ in held..goal {
            let class = random.pick(&classes);
            let length = random.between(64, MOST_BYTES as usize) as u32;
            list.push(Event { class, length });
        }
        let left = random.below(goal);
        list.extend(vec![FINISH; goal.max(held) - left]);
        held = left;
    }
    list.truncate(events);
    Case { rows, events: list }
}

#[cfg(test)]
mod tests {
    use super::*;

    #[test]
    fn few_classes_of_a_sparse_list_have_packets() {
        for (fans, classes) in [(&[255][..], 255_usize), (&[15, 16], 240), (&[8], 8)] {
            let (mut held, mut most, mut sum) = (0_usize, 0, 0);
            let case = sparse_case(fans, 4096);
            for event in &case.events {
                match *event {
                    FINISH => held -= 1,
                    _ => held += 1,
                }
                most = most.max(held);
                sum += held;
            }
            assert!(most <= classes.div_ceil(4) && most >= classes / 5);
            assert!(sum / case.events.len() <= classes / 6);
        }
    }

    #[test]
    fn every_list_is_accepted_and_as_large_as_asked() {
        for (fans, rows) in [
            (&[1][..], 2),
            (&[255], 256),
            (&[15, 16], 256),
            (&[2, 2, 2, 2, 2, 2, 1, 1], 255),
        ] {
            for events in [0, 1, 4096, 65_536] {
                for case in [steady_case(fans, events), sparse_case(fans, events)] {
                    assert_eq!((case.rows.len(), case.events.len()), (rows, events));
                    assert_eq!(case.answer().number, 0);
                }
            }
        }
    }
}
