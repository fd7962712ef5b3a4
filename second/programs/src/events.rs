//! Events decoded from their two words, and refusals 11 to 13.

use crate::table::Table;

/// Bytes of the longest packet.
pub const MOST_BYTES: u32 = 9000;

pub enum Event {
    /// A packet of `length` bytes for the sending class in `row`.
    Arrival { row: usize, length: u32 },
    /// The line has finished its packet.
    Finish,
}

/// The event, or the number of its refusal.
pub fn decode(table: &Table, class: u32, length: u32) -> Result<Event, u32> {
    if class == 0 {
        return if length == 0 {
            Ok(Event::Finish)
        } else {
            Err(13)
        };
    }
    let Some(row) = table.find(class) else {
        return Err(11);
    };
    if row == 0 || !table.rows[row].children.is_empty() {
        return Err(12);
    }
    if length == 0 || length > MOST_BYTES {
        return Err(13);
    }
    Ok(Event::Arrival { row, length })
}
