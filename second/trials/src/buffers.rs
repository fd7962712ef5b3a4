//! The ten byte slices of a call: what an engine reads, and what it writes.

use crate::{Case, Event, Row};
use second::REPORT_WIDTH;

/// The slices of a call, in its order; all but the first five are written.
pub const SLICES: [&str; 10] = [
    "identifiers",
    "parents",
    "shares",
    "classes",
    "lengths",
    "order",
    "report",
    "lags",
    "working",
    "answer",
];

/// Bytes of a word in each of them.
pub const WORD_BYTES: [usize; 10] = [4, 4, 4, 4, 4, 4, 8, 8, 4, 4];

/// Bytes of an answer: its four words.
pub const ANSWER_BYTES: usize = 16;

/// A run over five slices that are read and five that are written; gives the answer's number.
pub type Engine = fn([&[u8]; 5], [&mut [u8]; 5]) -> u32;

/// The bytes of the slices.
#[derive(Clone, Debug, PartialEq, Eq)]
pub struct Buffers(pub [Vec<u8>; 10]);

impl Buffers {
    /// The table and the list, with results that are just long enough and all zero.
    pub fn of(case: &Case) -> Buffers {
        let rows = |of: fn(&Row) -> u32| bytes(case.rows.iter().map(of));
        let events = |of: fn(&Event) -> u32| bytes(case.events.iter().map(of));
        let room = |words: usize, bytes: usize| vec![0; words * bytes];
        let [row_count, event_count] = [case.rows.len(), case.events.len()];
        Buffers([
            rows(|r| r.identifier),
            rows(|r| r.parent),
            rows(|r| r.share),
            events(|e| e.class),
            events(|e| e.length),
            room(event_count, 4),
            room(row_count * REPORT_WIDTH, 8),
            room(row_count, 8),
            room(event_count, 4),
            room(1, ANSWER_BYTES),
        ])
    }

    /// Calls an engine over them.
    pub fn call(&mut self, engine: Engine) -> u32 {
        call(engine, self.0.each_mut().map(Vec::as_mut_slice))
    }
}

/// Calls an engine over ten slices in the order of a call.
pub fn call(engine: Engine, slices: [&mut [u8]; 10]) -> u32 {
    let [identifiers, parents, shares, classes, lengths, written @ ..] = slices;
    engine([identifiers, parents, shares, classes, lengths], written)
}

fn bytes(words: impl Iterator<Item = u32>) -> Vec<u8> {
    words.flat_map(u32::to_le_bytes).collect()
}
