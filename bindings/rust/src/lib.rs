//! Marginlilac's two engines: a day of packets over a table of classes, replayed exactly.
//!
//! Both give the same answer and leave the same words, whatever they are lent. [`run`] looks
//! through a row's children at each choice; [`run_heaps`] keeps them in heaps, which is quicker
//! where a row has many. Nothing is allocated; 2 MiB of stack, which a thread has by default, are
//! enough. What the numbers mean is in the project's docs/RULES.md.
//!
//! ```
//! use marginlilac::{run, Events, Results, Table};
//!
//! let table = Table {
//!     identifiers: &[1, 10, 20],
//!     parents: &[0, 1, 1],
//!     shares: &[0, 420, 420],
//! };
//! // Three packets arrive, then the line finishes one.
//! let events = Events {
//!     classes: &[10, 20, 10, 0],
//!     lengths: &[100, 100, 100, 0],
//! };
//! let (mut order, mut report, mut lags, mut working) = ([0; 4], [0; 15], [0; 3], [0; 4]);
//! let answer = run(
//!     table,
//!     events,
//!     Results {
//!         order: &mut order,
//!         report: &mut report,
//!         lags: &mut lags,
//!         working: &mut working,
//!     },
//! );
//! assert_eq!((answer.number, answer.count), (0, 2));
//! assert_eq!(order[..2], [0, 1]);
//! assert_eq!(lags, [0, -42_000, 42_000]);
//! ```
#![deny(unsafe_code, missing_docs)]

#[allow(missing_docs)]
pub mod bytes;
mod words;

use bytes::Bytes;
use words::{bytes_of, bytes_of_mut};

/// Words that a row has in the report: bytes finished, start, finish, virtual time, packets held.
pub const REPORT_WORDS: usize = 5;

/// The class table, a word a row in each slice. Row 0 is the line itself.
#[derive(Clone, Copy, Debug)]
pub struct Table<'a> {
    /// From 1 to 65,535, each once.
    pub identifiers: &'a [u32],
    /// The identifier of an earlier row; 0 for row 0.
    pub parents: &'a [u32],
    /// From 1 to 840 parts of 840 of the parent; 0 for row 0.
    pub shares: &'a [u32],
}

/// The event list, a word an event in each slice.
#[derive(Clone, Copy, Debug)]
pub struct Events<'a> {
    /// The identifier of a class that a packet has arrived for; 0 where the line has finished one.
    pub classes: &'a [u32],
    /// Its bytes, from 1 to 9,000; 0 where the line has finished a packet.
    pub lengths: &'a [u32],
}

/// Where the results go. Words beyond those that are written stay as they are, and a refusal
/// writes none.
#[derive(Debug)]
pub struct Results<'a> {
    /// The packets in the order in which they went on the line, by the places of their events: at
    /// least a word an event.
    pub order: &'a mut [u32],
    /// At least [`REPORT_WORDS`] a row.
    pub report: &'a mut [u64],
    /// At least a word a row; above 0 where a class is short of its share.
    pub lags: &'a mut [i64],
    /// At least a word an event; a done run leaves zeros there.
    pub working: &'a mut [u32],
}

/// What a run answers.
#[derive(Clone, Copy, Debug, PartialEq, Eq)]
pub struct Answer {
    /// Why it was refused; 0 where it is done.
    pub number: u32,
    /// The row or the event that was refused.
    pub place: u32,
    /// Where an identifier is repeated, the earlier row.
    pub second_place: u32,
    /// How many packets went on the line.
    pub count: u32,
}

/// Replays the events over the table, looking through a row's children at each choice.
pub fn run(table: Table, events: Events, results: Results) -> Answer {
    call(bytes::run, table, events, results)
}

/// Replays the events over the table, with a row's waiting children in heaps.
pub fn run_heaps(table: Table, events: Events, results: Results) -> Answer {
    call(bytes::run_heaps, table, events, results)
}

fn call(engine: fn(Bytes) -> u32, table: Table, events: Events, results: Results) -> Answer {
    let mut answer = [0; 4];
    engine(Bytes {
        identifiers: bytes_of(table.identifiers),
        parents: bytes_of(table.parents),
        shares: bytes_of(table.shares),
        classes: bytes_of(events.classes),
        lengths: bytes_of(events.lengths),
        order: bytes_of_mut(results.order),
        report: bytes_of_mut(results.report),
        lags: bytes_of_mut(results.lags),
        working: bytes_of_mut(results.working),
        answer: bytes_of_mut(&mut answer),
    });
    let [number, place, second_place, count] = answer;
    Answer {
        number,
        place,
        second_place,
        count,
    }
}
