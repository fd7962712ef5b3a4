//! The lent bytes as words, and refusals 1 to 3.

use crate::answer::Answer;
use crate::Lent;

pub type Word = [u8; 4];
pub type Long = [u8; 8];

pub const MOST_ROWS: usize = 256;
const LEAST_ROWS: usize = 2;
const MOST_EVENTS: usize = 65_536;

/// Words a row has in the report.
pub const REPORT_WORDS: usize = 5;

/// The same slices in whole words.
pub struct Words<'a> {
    pub identifiers: &'a [Word],
    pub parents: &'a [Word],
    pub shares: &'a [Word],
    pub classes: &'a [Word],
    pub lengths: &'a [Word],
    pub order: &'a mut [Word],
    pub report: &'a mut [Long],
    pub lags: &'a mut [Long],
    pub working: &'a mut [Word],
    pub answer: &'a mut [u8; 16],
}

impl<'a> Words<'a> {
    /// Nothing if one has a part of a word too many, or the answer is not of four words.
    pub fn of(lent: Lent<'a>) -> Option<Words<'a>> {
        Some(Words {
            identifiers: whole(lent.identifiers)?,
            parents: whole(lent.parents)?,
            shares: whole(lent.shares)?,
            classes: whole(lent.classes)?,
            lengths: whole(lent.lengths)?,
            order: whole_mut(lent.order)?,
            report: whole_mut(lent.report)?,
            lags: whole_mut(lent.lags)?,
            working: whole_mut(lent.working)?,
            answer: lent.answer.try_into().ok()?,
        })
    }

    pub fn check_lengths(&self) -> Result<(), Answer> {
        let rows = self.identifiers.len();
        let alike = self.parents.len() == rows && self.shares.len() == rows;
        if !alike || !(LEAST_ROWS..=MOST_ROWS).contains(&rows) {
            return Err(Answer::refused(1, 0));
        }
        let events = self.classes.len();
        if self.lengths.len() != events || events > MOST_EVENTS {
            return Err(Answer::refused(2, 0));
        }
        let for_events = self.order.len().min(self.working.len());
        let for_rows = self.lags.len().min(self.report.len() / REPORT_WORDS);
        if for_events < events || for_rows < rows {
            return Err(Answer::refused(3, 0));
        }
        Ok(())
    }
}

fn whole<const BYTES: usize>(bytes: &[u8]) -> Option<&[[u8; BYTES]]> {
    let (words, rest) = bytes.as_chunks();
    rest.is_empty().then_some(words)
}

fn whole_mut<const BYTES: usize>(bytes: &mut [u8]) -> Option<&mut [[u8; BYTES]]> {
    let (words, rest) = bytes.as_chunks_mut();
    rest.is_empty().then_some(words)
}
