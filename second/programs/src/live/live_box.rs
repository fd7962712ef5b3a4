//! The box that a sound state is of: taking an event, refusals 21 and 22, and the state again.

use crate::counts::{Counts, RowCounts};
use crate::events::Event;
use crate::live::words::{State, StateHead, StatePacket, StateRow};
use crate::live::LiveAnswer;
use crate::report;
use crate::scheduler::Scheduler;
use crate::table::{Linked, Table};
use crate::tree::{Packet, RowState, Tree};

/// Packets that a state counts.
pub const MOST_ACCEPTED: u32 = 2_147_483_647;

/// Packets that there is room for at once.
pub const MOST_HELD: usize = 1_024;

pub struct LiveBox<'a> {
    scheduler: Scheduler<'a>,
    /// Packets ever accepted.
    accepted: u32,
}

impl State {
    /// The class table of a sound state.
    pub fn table(&self) -> Table {
        Table::linked(self.rows.iter().enumerate().map(|(row, numbers)| Linked {
            identifier: narrow(numbers.identifier),
            parent: (row > 0).then_some(numbers.parent as usize),
            share: narrow(numbers.share),
            depth: numbers.depth as usize,
        }))
    }
}

/// A number of a sound state that has 32 bits.
fn narrow(word: u64) -> u32 {
    word as u32
}

impl<'a> LiveBox<'a> {
    pub fn fresh(table: &'a Table) -> LiveBox<'a> {
        LiveBox {
            scheduler: Scheduler::new(table),
            accepted: 0,
        }
    }

    /// The box of a sound state, with that state's table.
    pub fn of(state: &State, table: &'a Table) -> LiveBox<'a> {
        let mut rows: Vec<RowState> = state.rows.iter().map(row_state).collect();
        for packet in &state.packets {
            rows[packet.class as usize].queue.push_back(Packet {
                place: narrow(packet.name),
                row: packet.class as usize,
                length: narrow(packet.length),
            });
        }
        let counts = state.rows.iter().map(row_counts).collect();
        let held = state.packets.len() as u32;
        let accepted = narrow(state.accepted);
        LiveBox {
            scheduler: Scheduler {
                table,
                tree: Tree::of(table, rows),
                counts: Counts::of(table, counts),
                // Each packet has arrived, and those that are not held are finished.
                events: accepted + (accepted - held),
            },
            accepted,
        }
    }

    /// The words in use of this box.
    pub fn state(&self) -> State {
        let rows = 0..self.scheduler.table.rows.len();
        State {
            accepted: u64::from(self.accepted),
            rows: rows.map(|row| self.state_row(row)).collect(),
            packets: self.packets(),
        }
    }

    /// Takes an event and writes the words in use, or refuses it and writes none.
    pub fn event(&mut self, class: u32, length: u32, words: &mut [u64]) -> LiveAnswer {
        match self.taken(class, length) {
            Ok(packet) => {
                self.state().write(words);
                LiveAnswer::done(packet)
            }
            Err(number) => LiveAnswer::refused(number),
        }
    }

    /// The packet that the event puts on the line, if it does; or the number of its refusal.
    fn taken(&mut self, class: u32, length: u32) -> Result<Option<u32>, u32> {
        let event = self.scheduler.meet(class, length)?;
        if let Event::Arrival { .. } = event {
            if self.accepted == MOST_ACCEPTED {
                return Err(21);
            }
            if self.scheduler.counts.rows[0].held == MOST_HELD as u64 {
                return Err(22);
            }
            self.accepted += 1;
        }
        Ok(self.scheduler.take(event))
    }

    /// Writes the rows' part of the report, and their lags.
    pub fn report(&self, report: &mut [u64], lags: &mut [i64]) {
        report::write_rows(&self.scheduler, report, lags);
    }

    fn state_row(&self, row: usize) -> StateRow {
        let class = &self.scheduler.table.rows[row];
        let tags = &self.scheduler.tree.rows[row];
        let counts = &self.scheduler.counts.rows[row];
        StateRow {
            identifier: u64::from(class.identifier),
            parent: class.parent.unwrap_or(0) as u64,
            depth: class.depth as u64,
            share: u64::from(class.share),
            start: tags.start,
            finish: tags.finish,
            virtual_time: tags.virtual_time,
            head: tags.head.map_or(StateHead::default(), state_head),
            bytes: counts.bytes,
            held: counts.held,
            bytes_then: counts.bytes_then,
            parent_bytes_then: counts.parent_bytes_then,
        }
    }

    /// All packets held, in the order of their arrival.
    fn packets(&self) -> Vec<StatePacket> {
        let rows = self.scheduler.tree.rows.iter();
        let mut packets: Vec<Packet> = rows.flat_map(|row| row.queue.iter().copied()).collect();
        packets.sort_by_key(|packet| packet.place);
        let packets = packets.into_iter().map(|packet| StatePacket {
            class: packet.row as u64,
            length: u64::from(packet.length),
            name: u64::from(packet.place),
        });
        packets.collect()
    }
}

/// The row without its queue.
fn row_state(row: &StateRow) -> RowState {
    RowState {
        start: row.start,
        finish: row.finish,
        virtual_time: row.virtual_time,
        head: (row.head.after_name > 0).then(|| Packet {
            place: narrow(row.head.after_name - 1),
            row: row.head.class as usize,
            length: narrow(row.head.length),
        }),
        ..RowState::default()
    }
}

fn row_counts(row: &StateRow) -> RowCounts {
    RowCounts {
        bytes: row.bytes,
        held: row.held,
        bytes_then: row.bytes_then,
        parent_bytes_then: row.parent_bytes_then,
    }
}

fn state_head(packet: Packet) -> StateHead {
    StateHead {
        after_name: u64::from(packet.place) + 1,
        length: u64::from(packet.length),
        class: packet.row as u64,
    }
}
