//! A table with an event list: as numbers, as text, and what a run answers to it.

use second::{inside, run, Answer, EventSlices, Inside, Room, TableSlices};

#[derive(Clone, Copy, Debug, PartialEq, Eq)]
pub struct Row {
    pub identifier: u32,
    pub parent: u32,
    pub share: u32,
}

#[derive(Clone, Copy, Debug, PartialEq, Eq)]
pub struct Event {
    pub class: u32,
    pub length: u32,
}

/// The line has finished its packet.
pub const FINISH: Event = Event {
    class: 0,
    length: 0,
};

#[derive(Clone, Debug, PartialEq, Eq)]
pub struct Case {
    pub rows: Vec<Row>,
    pub events: Vec<Event>,
}

impl Case {
    /// A table's lines end in CR LF alone.
    pub fn table_text(&self) -> String {
        let mut text = String::from("identifier,parent,share\r\n");
        for row in &self.rows {
            text.push_str(&format!(
                "{},{},{}\r\n",
                row.identifier, row.parent, row.share
            ));
        }
        text
    }

    /// Those of a list may end in LF too.
    pub fn event_text(&self) -> String {
        let mut text = String::from("class,length\n");
        for event in &self.events {
            text.push_str(&format!("{},{}\n", event.class, event.length));
        }
        text
    }

    /// What a run answers, with slices that are long enough.
    pub fn answer(&self) -> Answer {
        self.run(&mut Room::new(self.rows.len(), self.events.len()))
    }

    /// The run over slices of this room.
    pub fn run(&self, room: &mut Room) -> Answer {
        self.over_slices(|table, events| run(table, events, room.lend()))
    }

    /// The run from inside, or its refusal.
    pub fn inside(&self) -> Result<Inside, Answer> {
        self.over_slices(inside)
    }

    fn over_slices<T>(&self, work: impl FnOnce(TableSlices, EventSlices) -> T) -> T {
        let rows = |of: fn(&Row) -> u32| self.rows.iter().map(of).collect::<Vec<u32>>();
        let events = |of: fn(&Event) -> u32| self.events.iter().map(of).collect::<Vec<u32>>();
        let table = TableSlices {
            identifiers: &rows(|r| r.identifier),
            parents: &rows(|r| r.parent),
            shares: &rows(|r| r.share),
        };
        let events = EventSlices {
            classes: &events(|e| e.class),
            lengths: &events(|e| e.length),
        };
        work(table, events)
    }
}
