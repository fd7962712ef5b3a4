//! The results of an accepted run, and what the rows of a box have come to, written into the lent
//! slices.

use crate::scheduler::Scheduler;
use crate::slices::Lent;

/// Numbers a row has in the report.
pub const REPORT_WIDTH: usize = 5;

/// Writes the results of so many events; the slices have been found long enough before.
pub fn write(scheduler: &Scheduler, order: impl IntoIterator<Item = u32>, lent: &mut Lent) {
    for (word, place) in lent.order.iter_mut().zip(order) {
        *word = place;
    }
    write_rows(scheduler, lent.report, lent.lags);
    lent.working[..scheduler.events as usize].fill(0);
}

/// Writes the rows' part of the report, and their lags.
pub fn write_rows(scheduler: &Scheduler, report: &mut [u64], lags: &mut [i64]) {
    let rows = report.chunks_exact_mut(REPORT_WIDTH).zip(lags).enumerate();
    for (row, (numbers, lag)) in rows.take(scheduler.table.rows.len()) {
        numbers.copy_from_slice(&report_row(scheduler, row));
        *lag = scheduler.counts.lag(row);
    }
}

/// A sending class never chooses and the root is never charged, so the numbers
/// that are to be 0 for them are 0 in the state.
fn report_row(scheduler: &Scheduler, row: usize) -> [u64; REPORT_WIDTH] {
    let state = &scheduler.tree.rows[row];
    let counts = &scheduler.counts.rows[row];
    [
        counts.bytes,
        state.start,
        state.finish,
        state.virtual_time,
        counts.held,
    ]
}
