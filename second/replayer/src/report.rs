//! The results of a run: the report and the lags.

use crate::rows::{Row, Tags, WHOLE};
use crate::words::{Long, MOST_ROWS, REPORT_WORDS};

/// The root has no tags and a class without children no virtual time, so these are 0 already.
pub fn write(rows: &[Row], tags: &[Tags; MOST_ROWS], report: &mut [Long], lags: &mut [Long]) {
    for (row, words) in rows.iter().zip(report.chunks_exact_mut(REPORT_WORDS)) {
        let finish = tags[usize::from(row.seat)].finish;
        let numbers = [row.bytes, row.start, finish, row.virtual_time, row.held];
        for (word, number) in words.iter_mut().zip(numbers) {
            *word = number.to_le_bytes();
        }
    }
    for (row, word) in rows.iter().zip(lags) {
        *word = lag(row, rows).to_le_bytes();
    }
}

/// Bytes times 840 have far fewer than 63 bits.
fn lag(row: &Row, rows: &[Row]) -> i64 {
    if row.depth == 0 || row.held == 0 {
        return 0;
    }
    let parents = rows[usize::from(row.parent)].bytes - row.parent_bytes_then;
    let own = row.bytes - row.bytes_then;
    i64::from(row.share) * parents as i64 - i64::from(WHOLE) * own as i64
}
