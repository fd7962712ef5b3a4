//! Bytes finished, packets held and lags, counted from the events.

use crate::shares;
use crate::table::Table;

#[derive(Clone, Default)]
pub struct RowCounts {
    pub bytes: u64,
    pub held: u64,
    /// Bytes when the row last began to hold packets.
    pub bytes_then: u64,
    /// The parent's bytes at that moment.
    pub parent_bytes_then: u64,
}

pub struct Counts<'a> {
    table: &'a Table,
    pub rows: Vec<RowCounts>,
}

impl<'a> Counts<'a> {
    pub fn new(table: &'a Table) -> Counts<'a> {
        Counts::of(table, vec![RowCounts::default(); table.rows.len()])
    }

    /// Counts of rows that stand like this.
    pub fn of(table: &'a Table, rows: Vec<RowCounts>) -> Counts<'a> {
        Counts { table, rows }
    }

    /// A packet has arrived for the class in `row`.
    pub fn arrived(&mut self, row: usize) {
        for at in self.table.path(row) {
            let parent_bytes = self.parent_bytes(at);
            let counts = &mut self.rows[at];
            if counts.held == 0 {
                counts.bytes_then = counts.bytes;
                counts.parent_bytes_then = parent_bytes;
            }
            counts.held += 1;
        }
    }

    /// The line has finished a packet of the class in `row`, which held it.
    pub fn finished(&mut self, row: usize, length: u32) {
        for at in self.table.path(row) {
            self.rows[at].held -= 1;
            self.rows[at].bytes += u64::from(length);
        }
    }

    /// Positive when the class is short of its share of what its parent has sent.
    pub fn lag(&self, row: usize) -> i64 {
        let counts = &self.rows[row];
        if counts.held == 0 || self.table.rows[row].parent.is_none() {
            return 0;
        }
        let parent = self.parent_bytes(row) - counts.parent_bytes_then;
        let own = counts.bytes - counts.bytes_then;
        i64::from(self.table.rows[row].share) * signed(parent)
            - i64::from(shares::WHOLE) * signed(own)
    }

    /// The root counts as its own parent.
    fn parent_bytes(&self, row: usize) -> u64 {
        self.rows[self.table.rows[row].parent.unwrap_or(row)].bytes
    }
}

/// Byte counts are at most MOST_ACCEPTED * MOST_BYTES, so they always fit, also times 840.
fn signed(bytes: u64) -> i64 {
    i64::try_from(bytes).unwrap_or(i64::MAX)
}
