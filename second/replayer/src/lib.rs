//! A replayer over byte slices, written for speed: what the proved engines are timed against.
#![forbid(unsafe_code)]

mod answer;
mod events;
mod line;
mod report;
mod rows;
mod table;
mod words;

use answer::Answer;
use events::Events;
use line::Line;
use table::Table;
use words::Words;

/// What a caller lends: five slices that are read, and five for what comes of them. Words are
/// little-endian: of 64 bits in the report and the lags, elsewhere of 32.
pub struct Lent<'a> {
    pub identifiers: &'a [u8],
    pub parents: &'a [u8],
    pub shares: &'a [u8],
    pub classes: &'a [u8],
    pub lengths: &'a [u8],
    pub order: &'a mut [u8],
    pub report: &'a mut [u8],
    pub lags: &'a mut [u8],
    pub working: &'a mut [u8],
    /// Number, place, second place and count.
    pub answer: &'a mut [u8],
}

/// The answer to slices that are no whole number of words, and to an answer that is not of 16 bytes.
const PART_WORD: u32 = 3;

/// Replays the events over the table and gives the answer's number. A refusal writes the answer
/// alone, and one of part words nothing at all.
pub fn run(lent: Lent) -> u32 {
    let Some(mut words) = Words::of(lent) else {
        return PART_WORD;
    };
    let answer = match replay(&mut words) {
        Ok(count) => Answer::done(count),
        Err(refusal) => refusal,
    };
    words.answer.copy_from_slice(&answer.bytes());
    answer.number
}

/// All is checked before the first event is taken.
fn replay(words: &mut Words) -> Result<usize, Answer> {
    words.check_lengths()?;
    let table = Table::read(words)?;
    let events = Events::new(words);
    events.check(&table)?;
    let line = Line::new(&table, events, words.order, words.working);
    let (rows, tags, count) = line.take_all(&table);
    report::write(&rows[..table.count], &tags, words.report, words.lags);
    Ok(count)
}
