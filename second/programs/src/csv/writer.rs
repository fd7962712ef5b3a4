//! The lines of a table and of a report.

use crate::report::REPORT_WIDTH;
use crate::slices::TableSlices;

pub const TABLE_HEADING: &str = "identifier,parent,share";
const REPORT_HEADING: &str = "identifier,bytes,start,finish,virtual,held,lag";

pub const LINE_END: &str = "\r\n";

/// The heading and a line for each row.
pub fn table_text(table: &TableSlices) -> String {
    let mut text = format!("{TABLE_HEADING}{LINE_END}");
    let rest = table.parents.iter().zip(table.shares);
    for (identifier, (parent, share)) in table.identifiers.iter().zip(rest) {
        text.push_str(&format!("{identifier},{parent},{share}{LINE_END}"));
    }
    text
}

/// The heading and a line for each row, with its part of the report and its lag.
pub fn report_text(identifiers: &[u32], report: &[u64], lags: &[i64]) -> String {
    let mut text = format!("{REPORT_HEADING}{LINE_END}");
    let rows = report.chunks_exact(REPORT_WIDTH).zip(lags);
    for (identifier, (numbers, lag)) in identifiers.iter().zip(rows) {
        text.push_str(&format!("{identifier},"));
        for number in numbers {
            text.push_str(&format!("{number},"));
        }
        text.push_str(&format!("{lag}{LINE_END}"));
    }
    text
}
