//! A live box over lent words: its three calls, their checks in order, and what they answer.

mod live_box;
mod program;
mod sentences;
mod sound;
mod state_file;
mod words;

use crate::answer::Answer;
use crate::live::live_box::LiveBox;
use crate::report::REPORT_WIDTH;
use crate::run::{check_rows, MOST_ROWS};
use crate::slices::TableSlices;
use crate::table::Table;

pub use live_box::{MOST_ACCEPTED, MOST_HELD};
pub use program::respond;
pub use sound::is_sound;
pub use state_file::STATE_BYTES;
pub use words::{State, StateHead, StatePacket, StateRow, STATE_WORDS};

/// What a call answers: as a run does, and the packet that was put on the line, else 0.
#[derive(Clone, Copy, Debug, PartialEq, Eq)]
pub struct LiveAnswer {
    pub answer: Answer,
    pub packet: u32,
}

impl LiveAnswer {
    /// The call is done, and put this packet on the line or none.
    fn done(packet: Option<u32>) -> LiveAnswer {
        LiveAnswer {
            answer: Answer::done(packet.iter().count()),
            packet: packet.unwrap_or(0),
        }
    }

    /// A refusal that names no place.
    fn refused(number: u32) -> LiveAnswer {
        Answer::refused(number, 0).into()
    }
}

impl From<Answer> for LiveAnswer {
    fn from(answer: Answer) -> LiveAnswer {
        LiveAnswer { answer, packet: 0 }
    }
}

/// Makes a fresh state of a table. No word is written unless the table is accepted.
pub fn fresh(table: TableSlices, state: &mut [u64]) -> LiveAnswer {
    match accepted_table(&table, state) {
        Ok(table) => {
            LiveBox::fresh(&table).state().write(state);
            LiveAnswer::done(None)
        }
        Err(answer) => answer.into(),
    }
}

/// The table, or refusal 1, then 3, then one of the table's own.
fn accepted_table(table: &TableSlices, state: &[u64]) -> Result<Table, Answer> {
    check_rows(table)?;
    match state.len() < STATE_WORDS {
        true => Err(Answer::refused(3, 0)),
        false => Table::read(table),
    }
}

/// Takes an event, or refuses it and writes no word.
pub fn event(state: &mut [u64], class: u32, length: u32) -> LiveAnswer {
    match sound_state(state) {
        Ok(sound) => {
            let table = sound.table();
            LiveBox::of(&sound, &table).event(class, length, state)
        }
        Err(refusal) => refusal,
    }
}

/// Writes what the rows in use have come to, as a run does, and no other word.
pub fn report(state: &[u64], report: &mut [u64], lags: &mut [i64]) -> LiveAnswer {
    if report.len() < REPORT_WIDTH * MOST_ROWS || lags.len() < MOST_ROWS {
        return LiveAnswer::refused(3);
    }
    match sound_state(state) {
        Ok(sound) => {
            LiveBox::of(&sound, &sound.table()).report(report, lags);
            LiveAnswer::done(None)
        }
        Err(refusal) => refusal,
    }
}

/// The state, or refusal 3, then 20.
fn sound_state(words: &[u64]) -> Result<State, LiveAnswer> {
    match words.get(..STATE_WORDS) {
        None => Err(LiveAnswer::refused(3)),
        Some(words) => sound::state(words).ok_or(LiveAnswer::refused(20)),
    }
}
