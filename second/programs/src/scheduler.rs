//! The box: its rows and its counts, and the step of one event, which lists, captures and live
//! boxes share.

use crate::counts::Counts;
use crate::events::{decode, Event};
use crate::table::Table;
use crate::tree::{Packet, Tree};

pub struct Scheduler<'a> {
    pub table: &'a Table,
    pub tree: Tree<'a>,
    pub counts: Counts<'a>,
    /// Events taken so far. A packet's place is how many there were before its arrival.
    pub events: u32,
}

impl<'a> Scheduler<'a> {
    pub fn new(table: &'a Table) -> Scheduler<'a> {
        Scheduler {
            table,
            tree: Tree::new(table),
            counts: Counts::new(table),
            events: 0,
        }
    }

    /// The event of these two words as the box stands, or its refusal, 11 to 14.
    pub fn meet(&self, class: u32, length: u32) -> Result<Event, u32> {
        match decode(self.table, class, length)? {
            Event::Finish if self.tree.on_line().is_none() => Err(14),
            event => Ok(event),
        }
    }

    /// Takes an event that may be taken now. Gives the place of the packet that it puts on the line,
    /// if it does.
    pub fn take(&mut self, event: Event) -> Option<u32> {
        let before = self.place_on_line();
        match event {
            Event::Arrival { row, length } => {
                let place = self.events;
                self.counts.arrived(row);
                self.tree.arrive(Packet { place, row, length });
            }
            Event::Finish => {
                if let Some(packet) = self.tree.line_finished() {
                    self.counts.finished(packet.row, packet.length);
                }
            }
        }
        self.events += 1;
        // A packet is put on the line once.
        self.place_on_line().filter(|place| Some(*place) != before)
    }

    fn place_on_line(&self) -> Option<u32> {
        self.tree.on_line().map(|packet| packet.place)
    }
}
