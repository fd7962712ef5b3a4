//! The class table and the report as comma-separated lines, over lent slices.

mod faults;
mod reader;
mod writer;

use crate::answer::Answer;
use crate::report::REPORT_WIDTH;
use crate::run::{check_row_count, check_rows};
use crate::slices::{TableRoom, TableSlices};
use crate::table::Table;

pub use faults::Fault;
pub use reader::{read, Columns};
pub use writer::{report_text, LINE_END};

/// Reads the table in the first `length` bytes. No slice is written unless it is accepted; the
/// count is then its rows.
pub fn read_table(bytes: &[u8], length: usize, room: TableRoom) -> Answer {
    match accepted_table(bytes, length, &room) {
        Ok(table) => {
            let rows = table.identifiers.len();
            room.identifiers[..rows].copy_from_slice(&table.identifiers);
            room.parents[..rows].copy_from_slice(&table.parents);
            room.shares[..rows].copy_from_slice(&table.shares);
            Answer::done(rows)
        }
        Err(answer) => answer,
    }
}

fn accepted_table(bytes: &[u8], length: usize, room: &TableRoom) -> Result<Columns, Answer> {
    let table = read(bytes, length).map_err(|fault| fault.answer())?;
    check_rows(&table.slices())?;
    let lent = [&room.identifiers, &room.parents, &room.shares];
    if lent
        .iter()
        .any(|slice| slice.len() < table.identifiers.len())
    {
        return Err(Answer::refused(3, 0));
    }
    Table::read(&table.slices())?;
    Ok(table)
}

/// Writes the text of an accepted table. No byte is written otherwise; the count is the bytes.
pub fn write_table(table: TableSlices, bytes: &mut [u8]) -> Answer {
    write(accepted_table_text(&table, bytes), bytes)
}

fn accepted_table_text(table: &TableSlices, bytes: &[u8]) -> Result<String, Answer> {
    check_rows(table)?;
    let text = fitting(writer::table_text(table), bytes)?;
    Table::read(table)?;
    Ok(text)
}

/// Writes the rows' part of a report with their lags. The count is the bytes.
pub fn write_report(identifiers: &[u32], report: &[u64], lags: &[i64], bytes: &mut [u8]) -> Answer {
    write(fitting_report(identifiers, report, lags, bytes), bytes)
}

fn fitting_report(
    identifiers: &[u32],
    report: &[u64],
    lags: &[i64],
    bytes: &[u8],
) -> Result<String, Answer> {
    let rows = identifiers.len();
    check_row_count(rows)?;
    if report.len() < REPORT_WIDTH * rows || lags.len() < rows {
        return Err(Answer::refused(3, 0));
    }
    fitting(report_text(identifiers, report, lags), bytes)
}

/// The text, or refusal 40 where it is longer than what is lent for it.
fn fitting(text: String, bytes: &[u8]) -> Result<String, Answer> {
    match text.len() <= bytes.len() {
        true => Ok(text),
        false => Err(Fault::TOO_LONG.answer()),
    }
}

fn write(text: Result<String, Answer>, bytes: &mut [u8]) -> Answer {
    match text {
        Ok(text) => {
            bytes[..text.len()].copy_from_slice(text.as_bytes());
            Answer::done(text.len())
        }
        Err(answer) => answer,
    }
}
