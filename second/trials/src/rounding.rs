//! Lists in which a tick of rounding decides who goes first.

use second::{charge, is_exact, MOST_BYTES, WHOLE};

use crate::{Case, Event, Random, Row, FINISH};

/// The classes of such a list.
#[derive(Clone, Copy)]
enum Class {
    /// Has two packets.
    Two = 101,
    /// Has one packet, which costs as much as those two together, but for rounding.
    One = 102,
    /// Has one that goes before it and makes the second of the two eligible.
    Between = 103,
    /// Has one that is on the line when the others arrive.
    Before = 104,
}

struct Race {
    /// Of the first three classes; the last one has share 1.
    shares: [u32; 3],
    two: [u32; 2],
    one: u32,
    between: u32,
}

/// Ticks that packets of these lengths, one after another, cost a class with this share.
type Ticks = fn(&[u32], u32) -> u64;

/// Charges that are not rounded up once a packet, and how they are rounded.
pub const WRONG_CHARGES: [(&str, Ticks); 4] = [
    ("down", |lengths, share| {
        let down = |length: &u32| under_share_1(*length) / u64::from(share);
        lengths.iter().map(down).sum()
    }),
    ("to the nearest", |lengths, share| {
        let share = u64::from(share);
        let nearest = |length: &u32| (2 * under_share_1(*length) + share) / (2 * share);
        lengths.iter().map(nearest).sum()
    }),
    ("once a byte", |lengths, share| {
        lengths
            .iter()
            .map(|l| charge(1, share) * u64::from(*l))
            .sum()
    }),
    ("once for all packets", |lengths, share| {
        under_share_1(lengths.iter().sum()).div_ceil(u64::from(share))
    }),
];

fn under_share_1(length: u32) -> u64 {
    charge(length, 1)
}

/// A list in which two packets race, below a chain of classes of these shares. Rows and arrivals
/// of the two come in either order. At the end each class has a packet of length 1, which no share
/// that rounds at all charges exactly.
pub fn rounding_case(above: &[u32], random: &mut Random) -> Case {
    let race = random_race(random);
    race.case(above, random.pick(&ORDERS))
}

/// The four lists of one race.
pub fn rounding_cases(above: &[u32], random: &mut Random) -> [Case; 4] {
    let race = random_race(random);
    ORDERS.map(|orders| race.case(above, orders))
}

/// Whether the row of the class with two packets, and the second of these, come first.
const ORDERS: [[bool; 2]; 4] = [[true, true], [true, false], [false, true], [false, false]];

fn random_race(random: &mut Random) -> Race {
    loop {
        // Where they have a large divisor in common, the charge of both is mostly no whole number.
        let unit = match random.one_in(2) {
            true => 1,
            false => random.between(11, 99) as u32,
        };
        let [two, one] = [(); 2].map(|()| unit * random.between(1, (WHOLE / unit) as usize) as u32);
        let Some(between @ 1..) = (WHOLE - 1).checked_sub(two + one) else {
            continue;
        };
        // Lengths that go with the shares cost the same.
        let common = common_divisor(two, one);
        let times = random.between(1, 20) as u32;
        let sum = two / common * times;
        let first = random.between(1, sum as usize) as u32;
        let race = Race {
            shares: [two, one, between],
            two: [first, sum - first],
            one: one / common * times,
            between: charge(first, two).div_ceil(u64::from(WHOLE)) as u32 - first,
        };
        if !is_exact(two) && race.is_decided_at_last() {
            return race;
        }
    }
}

fn common_divisor(a: u32, b: u32) -> u32 {
    match b {
        0 => a,
        _ => common_divisor(b, a % b),
    }
}

impl Race {
    /// Whether the first packet of the two and the one between go before both that race.
    fn is_decided_at_last(&self) -> bool {
        let [two, one, between] = self.shares;
        let lengths = [self.two[0], self.two[1], self.one, self.between];
        let last = charge(self.one, one);
        lengths
            .iter()
            .all(|length| (1..=MOST_BYTES).contains(length))
            && charge(self.two[0], two) < last
            && charge(self.between, between) < last
    }

    /// The list with its rows and arrivals in one of `ORDERS`.
    fn case(&self, above: &[u32], [row_first, packet_first]: [bool; 2]) -> Case {
        let [two, one, between] = self.shares;
        let mut classes = vec![
            (Class::Two, two),
            (Class::One, one),
            (Class::Between, between),
            (Class::Before, 1),
        ];
        let mut packets = vec![
            packet(Class::Before, 1),
            packet(Class::Two, self.two[0]),
            packet(Class::Between, self.between),
            packet(Class::Two, self.two[1]),
            packet(Class::One, self.one),
        ];
        if !row_first {
            classes.swap(0, 1);
        }
        if !packet_first {
            packets.swap(3, 4);
        }
        let last = classes.iter().map(|(class, _)| packet(*class, 1)).collect();
        Case {
            rows: rows(above, &classes),
            events: [all_finished(packets), all_finished(last)].concat(),
        }
    }
}

/// The root, a chain of classes of these shares, and below it the others.
fn rows(above: &[u32], classes: &[(Class, u32)]) -> Vec<Row> {
    let row = |identifier, parent, share| Row {
        identifier,
        parent,
        share,
    };
    let mut rows = vec![row(1, 0, 0)];
    for (parent, share) in (1..).zip(above) {
        rows.push(row(parent + 1, parent, *share));
    }
    let parent = rows.len() as u32;
    let below = classes
        .iter()
        .map(|(class, share)| row(*class as u32, parent, *share));
    rows.extend(below);
    rows
}

fn packet(class: Class, length: u32) -> Event {
    let class = class as u32;
    Event { class, length }
}

fn all_finished(mut packets: Vec<Event>) -> Vec<Event> {
    packets.resize(2 * packets.len(), FINISH);
    packets
}

#[cfg(test)]
mod tests {
    use super::*;
    use second::Room;

    const RIGHT: Ticks = |lengths, share| lengths.iter().map(|l| charge(*l, share)).sum();

    fn races() -> impl Iterator<Item = Race> {
        (0..500).map(|list| random_race(&mut Random::new(9, list)))
    }

    /// By how many ticks the second packet of the two is behind the other one.
    fn behind(race: &Race, ticks: Ticks) -> i64 {
        let [two, one, _] = race.shares;
        ticks(&race.two, two) as i64 - ticks(&[race.one], one) as i64
    }

    /// Whether the second packet of the two goes first.
    fn goes_first(behind: i64, packet_first: bool) -> bool {
        behind < 0 || behind == 0 && packet_first
    }

    /// The order in which the packets go on the line; all of them must be finished.
    fn order(case: &Case) -> Vec<u32> {
        let mut room = Room::new(case.rows.len(), case.events.len());
        let answer = case.run(&mut room);
        assert_eq!((answer.number, answer.count), (0, 9));
        room.order
    }

    #[test]
    fn the_rounding_decides_at_every_depth() {
        for race in races() {
            for above in [&[][..], &[11], &[840, 1, 13, 756, 840, 2, 239]] {
                for orders in ORDERS {
                    let order = order(&race.case(above, orders));
                    let first = goes_first(behind(&race, RIGHT), orders[1]);
                    let place = if first == orders[1] { 3 } else { 4 };
                    assert_eq!((order[0], order[3]), (0, place));
                }
            }
        }
    }

    #[test]
    fn every_wrong_charge_changes_the_order_often() {
        for (name, wrong) in WRONG_CHARGES {
            let changes = |race: &Race| {
                let [right, wrong] = [RIGHT, wrong].map(|ticks| behind(race, ticks));
                let differs = |first| goes_first(right, first) != goes_first(wrong, first);
                differs(true) || differs(false)
            };
            assert!(races().filter(changes).count() > 100, "{name}");
        }
    }

    #[test]
    fn finishes_are_a_tick_apart_or_equal() {
        let mut seen = [0; 2];
        for race in races() {
            seen[behind(&race, RIGHT) as usize] += 1;
        }
        assert!(seen.iter().all(|count| *count > 100), "{seen:?}");
    }

    #[test]
    fn each_row_ends_with_a_packet_of_length_1() {
        let case = rounding_case(&[7, 11], &mut Random::new(9, 1));
        let mut room = Room::new(case.rows.len(), case.events.len());
        case.run(&mut room);
        for (row, part) in case.rows.iter().zip(room.report.chunks_exact(5)).skip(1) {
            assert_eq!(part[2] - part[1], charge(1, row.share));
        }
    }
}
