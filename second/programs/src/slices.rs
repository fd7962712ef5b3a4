//! The slices a caller lends.

use crate::report::REPORT_WIDTH;

/// The class table, one word a row in each slice.
#[derive(Clone, Copy, Debug)]
pub struct TableSlices<'a> {
    pub identifiers: &'a [u32],
    pub parents: &'a [u32],
    pub shares: &'a [u32],
}

/// Where the rows of a table that is read as text go.
#[derive(Debug)]
pub struct TableRoom<'a> {
    pub identifiers: &'a mut [u32],
    pub parents: &'a mut [u32],
    pub shares: &'a mut [u32],
}

/// The event list, one word an event in each slice.
#[derive(Clone, Copy, Debug)]
pub struct EventSlices<'a> {
    pub classes: &'a [u32],
    pub lengths: &'a [u32],
}

/// Where the event list that a capture makes goes.
#[derive(Debug)]
pub struct EventRoom<'a> {
    pub classes: &'a mut [u32],
    pub lengths: &'a mut [u32],
}

/// Where the results go, and the working slice.
#[derive(Debug)]
pub struct Lent<'a> {
    pub order: &'a mut [u32],
    pub report: &'a mut [u64],
    pub lags: &'a mut [i64],
    pub working: &'a mut [u32],
}

/// What a caller has to lend for the results.
#[derive(Clone, Debug, PartialEq, Eq)]
pub struct Room {
    pub order: Vec<u32>,
    pub report: Vec<u64>,
    pub lags: Vec<i64>,
    pub working: Vec<u32>,
}

impl Room {
    /// Just enough for so many rows and events.
    pub fn new(rows: usize, events: usize) -> Room {
        Room {
            order: vec![0; events],
            report: vec![0; rows * REPORT_WIDTH],
            lags: vec![0; rows],
            working: vec![0; events],
        }
    }

    pub fn lend(&mut self) -> Lent<'_> {
        Lent {
            order: &mut self.order,
            report: &mut self.report,
            lags: &mut self.lags,
            working: &mut self.working,
        }
    }
}
