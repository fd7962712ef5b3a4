//! Replaying captured packets over lent slices: what is lent, the checks in their order, the answer.

mod layout;
mod list;
mod program;
mod records;
mod refusals;

use crate::answer::Answer;
use crate::capture::list::{Line, Trip};
use crate::capture::refusals::Refusal;
use crate::run::{check_room, check_rows, MOST_EVENTS};
use crate::slices::{EventRoom, Lent, TableSlices};
use crate::table::Table;

pub use program::{respond, MOST_CAPTURE};

/// Each record makes an arrival and a finish.
pub const MOST_RECORDS: usize = MOST_EVENTS / 2;

/// A file in the classic pcap layout, and what its packets are sent by.
#[derive(Clone, Copy, Debug)]
pub struct Capture<'a> {
    pub bytes: &'a [u8],
    /// The class of code points 46 and 48 to 63, that of 8 to 39, and that of all others.
    pub classes: [u32; 3],
    /// Bytes that the line carries in a second.
    pub rate: u32,
}

impl Capture<'_> {
    fn class_of(&self, code_point: u8) -> u32 {
        let [first, second, third] = self.classes;
        match code_point {
            46 | 48..=63 => first,
            8..=39 => second,
            _ => third,
        }
    }
}

/// Replays the capture over the table. Nothing lent is written unless all is accepted.
pub fn replay(capture: Capture, table: TableSlices, list: EventRoom, lent: Lent) -> Answer {
    match send(&capture, &table, list, lent) {
        Ok(trips) => Answer::done(trips.len()),
        Err(refusal) => refusal.answer(),
    }
}

/// The packets in the order in which they went on the line.
fn send(
    capture: &Capture,
    slices: &TableSlices,
    list: EventRoom,
    lent: Lent,
) -> Result<Vec<Trip>, Refusal> {
    if capture.rate == 0 {
        return Err(Refusal::Rate);
    }
    let records = records::read(capture.bytes)?;
    check_lengths(records.len(), slices, &list, &lent)?;
    let table = Table::read(slices)?;
    let mut line = Line::new(&table, capture);
    line.carry(&records)?;
    line.write(list, lent);
    Ok(line.trips)
}

/// Refusals 1, 2 and 3.
fn check_lengths(
    records: usize,
    table: &TableSlices,
    list: &EventRoom,
    lent: &Lent,
) -> Result<(), Refusal> {
    check_rows(table)?;
    if records > MOST_RECORDS {
        return Err(Refusal::Records { count: records });
    }
    let events = 2 * records;
    if list.classes.len() < events || list.lengths.len() < events {
        return Err(Answer::refused(3, 0).into());
    }
    Ok(check_room(table.identifiers.len(), events, lent)?)
}
