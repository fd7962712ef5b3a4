//! Long lists of packets of one byte, in which a tick a packet adds up to whole packets.

use std::collections::VecDeque;

use crate::common::{accepted, Event, Row, FINISH, ROOT};

/// Many of one event.
fn many(event: Event, count: usize) -> Vec<Event> {
    vec![event; count]
}

/// Whether the line passes the number of a class right under it, of this share: three packets of
/// one byte more than its own bytes, times 840 over the share, and so many ticks.
fn passes(line: u64, own: u64, share: u64, ticks: u64) -> bool {
    line * share * 840 > (own + 3) * 840 * 840 + ticks * share
}

/// A packet costs class 10 its 1203 ticks for 1202 and a little, nearly a tick too much.
/// It always has packets, and when it has finished 10853 the line has finished 15535.
#[test]
fn without_ticks_the_promise_would_be_broken() {
    let rows = [ROOT, (10, 1, 587), (20, 1, 253)];
    let packets = [many((10, 1), 10_900), many((20, 1), 4700)].concat();
    let events = [packets, many(FINISH, 15_535)].concat();
    let outcome = accepted(&rows, &events);
    let [line, own] = [0, 1].map(|row| outcome.report[row][0]);
    assert_eq!([line, own], [15_535, 10_853]);
    assert!(outcome.report[1][4] > 0);
    assert!(passes(line, own, 587, 0));
    assert!(!passes(line, own, 587, own + 2));
}

/// A class right under the line, with packets of one byte.
#[derive(Clone, Default)]
struct Class {
    charge: u64,
    queue: VecDeque<u32>,
    start: u64,
    finish: u64,
}

impl Class {
    fn next_head(&mut self, start: u64) {
        self.start = start;
        self.finish = start + self.charge;
    }
}

/// A line whose classes are charged other than by the rules.
#[derive(Default)]
struct Line {
    classes: Vec<Class>,
    virtual_time: u64,
    sending: Option<usize>,
    order: Vec<u32>,
}

impl Line {
    fn arrival(&mut self, class: usize, place: u32) {
        let class = &mut self.classes[class];
        class.queue.push_back(place);
        if class.queue.len() == 1 {
            class.next_head(class.finish.max(self.virtual_time));
        }
    }

    fn finish(&mut self) {
        let sending = self.sending.take().expect("the line is busy");
        let class = &mut self.classes[sending];
        class.queue.pop_front();
        if !class.queue.is_empty() {
            class.next_head(class.finish);
        }
    }

    fn choose(&mut self) {
        let waiting = || self.classes.iter().filter(|class| !class.queue.is_empty());
        let Some(least) = waiting().map(|class| class.start).min() else {
            return;
        };
        let reached = self.virtual_time.max(least);
        let in_time = waiting().filter(|class| class.start <= reached);
        let first = in_time.map(|class| (class.finish, class.queue[0])).min();
        let (_, packet) = first.expect("the least start has been reached");
        let has_it = |class: &Class| class.queue.front() == Some(&packet);
        self.sending = self.classes.iter().position(has_it);
        self.order.push(packet);
        self.virtual_time = reached + 840;
    }
}

/// The order of a run over classes right under the line, charged so many ticks a packet.
fn order(rows: &[Row], events: &[Event], charge: impl Fn(u32) -> u64) -> Vec<u32> {
    let class = |row: &Row| Class {
        charge: charge(row.2),
        ..Class::default()
    };
    let mut line = Line {
        classes: rows[1..].iter().map(class).collect(),
        ..Line::default()
    };
    for (place, event) in (0..).zip(events) {
        match rows[1..].iter().position(|row| row.0 == event.0) {
            Some(class) => line.arrival(class, place),
            None => line.finish(),
        }
        if line.sending.is_none() {
            line.choose();
        }
    }
    line.order
}

/// Both classes have packets until class 10 has none, just for a moment; then it gets one more. With
/// a tick less for each, the line's virtual time has run ahead of class 20's, which is sent until
/// it has caught up: 11 bytes, where 10 and a half and 2 ticks are promised. Rightly charged, 3.
#[test]
fn a_charge_of_one_tick_less_breaks_the_promise() {
    let rows = [ROOT, (10, 1, 240), (20, 1, 600)];
    let right = |share: u32| u64::from((840 * 840_u32).div_ceil(share));
    let packets = [many((10, 1), 4400), many((20, 1), 11_060)].concat();
    for (less, bytes) in [(0, 3), (1, 11)] {
        let charge = |share| right(share) - less;
        let all = [&packets[..], &many(FINISH, packets.len())].concat();
        let first = order(&rows, &all, charge);
        let last = first.iter().rposition(|packet| *packet < 4400);
        let before = last.expect("class 10 has packets") + 1;
        let mut events = [&packets[..], &many(FINISH, before), &[(10, 1)]].concat();
        let arrived = events.len() as u32 - 1;
        events.extend(many(FINISH, bytes));
        let sent = order(&rows, &events, charge);
        assert_eq!(sent.last(), Some(&arrived));
        assert_eq!(sent.len(), before + bytes + 1);
        assert_eq!(passes(bytes as u64, 0, 240, 2), less == 1);
        if less == 0 {
            assert_eq!(sent, accepted(&rows, &events).order);
        }
    }
}
