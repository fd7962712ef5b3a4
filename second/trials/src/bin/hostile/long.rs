//! Lists of the longest packets at the limits, where tags, byte counts and lags are great.

use crate::equal::finished;
use second::{MOST_BYTES, MOST_DEPTH, MOST_EVENTS};
use trials::{even_table, sending, Case, Event, Row, EDGES, FINISH};

const HALF: usize = MOST_EVENTS / 2;

/// The sending class of a steep table.
const DEEPEST: u32 = MOST_DEPTH as u32 + 1;

/// Lengths that are refused; in 16 or 31 bits two of them would be accepted.
const REFUSED: [u32; 5] = [
    0,
    MOST_BYTES + 1,
    (1 << 16) + 100,
    (1 << 31) + 100,
    u32::MAX,
];

/// Each list and what it is.
pub fn longest_packets() -> Vec<(String, Case)> {
    let full = full_lists().into_iter();
    let full = full.map(|(name, rows, events)| (name.to_string(), Case { rows, events }));
    let lengths = EDGES.into_iter().chain(REFUSED);
    full.chain(lengths.map(one_packet)).collect()
}

/// A packet of this length, which goes on the line and is finished.
fn one_packet(length: u32) -> (String, Case) {
    let case = Case {
        rows: steep(),
        events: vec![packet(DEEPEST, length), FINISH],
    };
    (format!("one of length {length}"), case)
}

fn full_lists() -> Vec<(&'static str, Vec<Row>, Vec<Event>)> {
    let flat = even_table(&[255]);
    let classes = sending(&flat).into_iter();
    let round: Vec<Event> = classes.map(|class| packet(class, MOST_BYTES)).collect();
    let deep = packet(DEEPEST, MOST_BYTES);
    let pair = [packet(2, MOST_BYTES), packet(3, 1)];
    vec![
        ("flat, then finished", flat, finished(&round, HALF)),
        ("steep, in turn", steep(), [deep, FINISH].repeat(HALF)),
        ("steep, then finished", steep(), finished(&[deep], HALF)),
        ("steep, all held", steep(), vec![deep; MOST_EVENTS]),
        ("steep, far ahead", steep(), all_but_two(&[deep])),
        ("long against short, ahead", unlike(), all_but_two(&pair)),
        ("long against short, behind", unlike(), one_before(&pair)),
        ("too long at the end", steep(), too_long_at_the_end(deep)),
    ]
}

fn packet(class: u32, length: u32) -> Event {
    Event { class, length }
}

/// A chain of the greatest depth. With share 1 no byte could cost more.
fn steep() -> Vec<Row> {
    let mut rows = even_table(&[1; MOST_DEPTH]);
    rows[1..].iter_mut().for_each(|row| row.share = 1);
    rows
}

/// Class 2 with little of the line and class 3 with most of it.
fn unlike() -> Vec<Row> {
    let mut rows = even_table(&[2]);
    (rows[1].share, rows[2].share) = (1, 800);
    rows
}

/// A full list of these packets over and over, all but two of which are finished.
fn all_but_two(packets: &[Event]) -> Vec<Event> {
    let mut events = finished(packets, HALF + 1);
    events.truncate(MOST_EVENTS);
    events
}

/// One packet, for which a full list of the other ones waits until it is finished.
fn one_before([one, other]: &[Event; 2]) -> Vec<Event> {
    let mut events = vec![*other; MOST_EVENTS];
    events[0] = *one;
    events[MOST_EVENTS - 1] = FINISH;
    events
}

/// Packets like this one and their finishes; the last event is a packet one byte longer.
fn too_long_at_the_end(packet: Event) -> Vec<Event> {
    let mut events = finished(&[packet], HALF);
    events[MOST_EVENTS - 1] = Event {
        length: packet.length + 1,
        ..packet
    };
    events
}

#[cfg(test)]
mod tests {
    use second::{Answer, Room, MOST_ROWS, REPORT_WIDTH};

    use super::*;

    /// What the greatest charge comes to.
    const CHARGE: u64 = MOST_BYTES as u64 * 840 * 840;

    fn list(name: &str) -> Case {
        let mut found = longest_packets().into_iter().filter(|(n, _)| n == name);
        found.next().expect("there is such a list").1
    }

    fn results(name: &str) -> (Answer, Room) {
        let case = list(name);
        let mut room = Room::new(case.rows.len(), case.events.len());
        (case.run(&mut room), room)
    }

    /// One number of each row's part of the report.
    fn column(room: &Room, place: usize) -> Vec<u64> {
        let column = room.report.iter().skip(place).step_by(REPORT_WIDTH);
        column.copied().collect()
    }

    #[test]
    fn lists_and_tables_reach_the_limits() {
        for (name, _, events) in full_lists() {
            assert_eq!(events.len(), MOST_EVENTS, "{name}");
            assert!(events.iter().any(|event| event.length == MOST_BYTES));
        }
        assert_eq!(full_lists()[0].1.len(), MOST_ROWS);
    }

    #[test]
    fn tags_and_byte_counts_are_great() {
        for name in ["steep, in turn", "steep, then finished"] {
            let (answer, room) = results(name);
            assert_eq!((answer.number, answer.count as usize), (0, HALF));
            let [bytes, finish] = [0, 2].map(|place| column(&room, place));
            assert_eq!(bytes, [HALF as u64 * u64::from(MOST_BYTES); MOST_DEPTH + 1]);
            assert_eq!(finish[1..], [HALF as u64 * CHARGE; MOST_DEPTH]);
        }
    }

    #[test]
    fn packets_held_and_lags_are_great() {
        let longest = i64::from(MOST_BYTES);
        let (_, room) = results("steep, all held");
        assert_eq!(column(&room, 4), [MOST_EVENTS as u64; MOST_DEPTH + 1]);
        let (_, room) = results("steep, far ahead");
        let lag = (1 - 840) * (HALF as i64 - 1) * longest;
        assert_eq!(room.lags[1..], [lag; MOST_DEPTH]);
        // All packets of class 3 are finished, and all but two of class 2.
        let (_, room) = results("long against short, ahead");
        let short = HALF as i64 / 2;
        assert_eq!(room.lags, [0, short - 839 * (short - 1) * longest, 0]);
        let (_, room) = results("long against short, behind");
        assert_eq!(room.lags, [0, 0, 800 * longest]);
    }

    #[test]
    fn a_full_list_over_a_full_table_is_accepted() {
        let (answer, _) = results("flat, then finished");
        assert_eq!((answer.number, answer.count as usize), (0, HALF));
    }

    #[test]
    fn one_byte_too_many_is_refused_at_the_end() {
        let (answer, room) = results("too long at the end");
        assert_eq!(
            (answer.number, answer.place as usize),
            (13, MOST_EVENTS - 1)
        );
        assert_eq!(room, Room::new(MOST_DEPTH + 1, MOST_EVENTS));
    }

    #[test]
    fn single_packets_are_accepted_or_refused() {
        let answer = |length| one_packet(length).1.answer().number;
        assert!(EDGES.into_iter().all(|edge| answer(edge) == 0));
        assert!(REFUSED.into_iter().all(|length| answer(length) == 13));
    }
}
