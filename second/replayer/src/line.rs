//! The line with all its rows, and the steps: arrival, choosing, line finished.

use std::mem;

use crate::events::Events;
use crate::rows::{choice, Head, Rows, Tags, IDLE, WHOLE};
use crate::table::Table;
use crate::words::{Word, MOST_ROWS};

/// Why a row gets a head.
#[derive(Clone, Copy, PartialEq)]
enum Reason {
    /// It had none.
    Arrived,
    /// Its last one has just been finished.
    Finished,
}

/// A run over an input that has been checked.
pub struct Line<'a> {
    events: Events<'a>,
    rows: Rows,
    /// By the rows' seats; the root's has the packet on the line.
    tags: [Tags; MOST_ROWS],
    order: &'a mut [Word],
    sent: usize,
    /// For each packet the one behind it in its queue, or 0.
    behind: &'a mut [Word],
}

impl<'a> Line<'a> {
    pub fn new(
        table: &Table,
        events: Events<'a>,
        order: &'a mut [Word],
        working: &'a mut [Word],
    ) -> Line<'a> {
        Line {
            behind: &mut working[..events.count()],
            events,
            rows: table.rows,
            tags: [IDLE; MOST_ROWS],
            order,
            sent: 0,
        }
    }

    /// Takes all events. Gives the rows and their tags as they are then, and how many packets
    /// went on the line.
    pub fn take_all(mut self, table: &Table) -> (Rows, [Tags; MOST_ROWS], usize) {
        for (place, (class, length)) in (1..).zip(self.events.pairs()) {
            if class == 0 {
                self.finish();
                continue;
            }
            self.arrive(Head {
                place,
                length: length as u16,
                class: table.sender(class),
            });
        }
        self.behind.fill([0; 4]);
        (self.rows, self.tags, self.sent)
    }

    fn arrive(&mut self, packet: Head) {
        self.count_arrival(packet.class);
        let row = &mut self.rows[usize::from(packet.class)];
        let last = mem::replace(&mut row.last, packet.place);
        self.behind[packet.place as usize - 1] = [0; 4];
        if self.tags[usize::from(row.seat)].has_head() {
            self.behind[last as usize - 1] = packet.place.to_le_bytes();
            return;
        }
        self.set_head(packet.class, packet, Reason::Arrived);
        self.choose_above(packet.class, Reason::Arrived);
    }

    fn finish(&mut self) {
        let packet = self.tags[0].head;
        self.leave(packet);
        let next = u32::from_le_bytes(self.behind[packet.place as usize - 1]);
        if next != 0 {
            let head = Head {
                place: next,
                length: self.events.length(next as usize - 1) as u16,
                class: packet.class,
            };
            self.set_head(packet.class, head, Reason::Finished);
        }
        self.choose_above(packet.class, Reason::Finished);
    }

    /// A packet that has arrived is held by every row up to the root.
    fn count_arrival(&mut self, class: u8) {
        let mut at = class;
        loop {
            let parent = self.rows[usize::from(at)].parent;
            let parent_bytes = self.rows[usize::from(parent)].bytes;
            let row = &mut self.rows[usize::from(at)];
            if row.held == 0 {
                row.bytes_then = row.bytes;
                row.parent_bytes_then = parent_bytes;
            }
            row.held += 1;
            if at == 0 {
                return;
            }
            at = parent;
        }
    }

    /// A packet that is finished leaves every row up to the root.
    fn leave(&mut self, packet: Head) {
        let mut at = packet.class;
        loop {
            let row = &mut self.rows[usize::from(at)];
            row.bytes += u64::from(packet.length);
            row.held -= 1;
            self.tags[usize::from(row.seat)].lose_head();
            if at == 0 {
                return;
            }
            at = row.parent;
        }
    }

    /// Lets the rows above choose, upwards, so long as they have no head.
    fn choose_above(&mut self, row: u8, reason: Reason) {
        let mut below = row;
        while below != 0 {
            let row = self.rows[usize::from(below)].parent;
            if self.tags[usize::from(self.rows[usize::from(row)].seat)].has_head() {
                return;
            }
            self.choose(row, reason);
            below = row;
        }
    }

    fn choose(&mut self, at: u8, reason: Reason) {
        let row = &mut self.rows[usize::from(at)];
        let first = usize::from(row.first);
        let children = &self.tags[first..first + usize::from(row.children)];
        let Some((head, time)) = choice(children, row.virtual_time) else {
            return;
        };
        row.virtual_time = time + u64::from(WHOLE) * u64::from(head.length);
        if at == 0 {
            self.send(head);
        } else {
            self.set_head(at, head, reason);
        }
    }

    fn send(&mut self, head: Head) {
        self.tags[0].head = head;
        self.order[self.sent] = (head.place - 1).to_le_bytes();
        self.sent += 1;
    }

    fn set_head(&mut self, at: u8, head: Head, reason: Reason) {
        let row = &self.rows[usize::from(at)];
        let tags = &mut self.tags[usize::from(row.seat)];
        let mut start = tags.finish;
        if reason == Reason::Arrived {
            start = start.max(self.rows[usize::from(row.parent)].virtual_time);
        }
        let finish = start + row.charge(head.length);
        *tags = Tags {
            start,
            finish,
            head,
        };
        self.rows[usize::from(at)].start = start;
    }
}
