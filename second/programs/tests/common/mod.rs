//! Helpers that the test files share: running a case over lent slices.

pub mod calls;
pub mod captures;
pub mod days;
pub mod files;
pub mod live;
pub mod texts;

use second::{Answer, EventSlices, Room, TableSlices};

/// Identifier, parent, share.
pub type Row = (u32, u32, u32);
/// Class, length.
pub type Event = (u32, u32);

pub const ROOT: Row = (1, 0, 0);
pub const FINISH: Event = (0, 0);

/// Two classes with half of the line each.
pub const HALVES: [Row; 3] = [ROOT, (10, 1, 420), (20, 1, 420)];

/// Rows of worked run P3: three classes with a third of the line each.
pub const THIRDS: [Row; 4] = [ROOT, (10, 1, 280), (20, 1, 280), (30, 1, 280)];

/// Rows in which class 2 has a class below it.
pub const TWO_LEVELS: [Row; 3] = [ROOT, (2, 1, 420), (3, 2, 420)];

/// Rows of worked run P4.
pub const P4_ROWS: [Row; 5] = [ROOT, (2, 1, 420), (3, 1, 420), (4, 2, 420), (5, 2, 420)];

/// The events of worked run P1 over `HALVES`.
pub const P1_EVENTS: [Event; 6] = [(10, 100), (20, 100), (10, 100), FINISH, FINISH, FINISH];

/// The events of worked run P3 over `THIRDS`.
pub const P3_EVENTS: [Event; 6] = [(10, 100), (30, 100), (20, 100), FINISH, FINISH, FINISH];

/// A table and an event list as separate columns.
pub struct Columns {
    pub identifiers: Vec<u32>,
    pub parents: Vec<u32>,
    pub shares: Vec<u32>,
    pub classes: Vec<u32>,
    pub lengths: Vec<u32>,
}

impl Columns {
    pub fn new(rows: &[Row], events: &[Event]) -> Columns {
        Columns {
            identifiers: rows.iter().map(|r| r.0).collect(),
            parents: rows.iter().map(|r| r.1).collect(),
            shares: rows.iter().map(|r| r.2).collect(),
            classes: events.iter().map(|e| e.0).collect(),
            lengths: events.iter().map(|e| e.1).collect(),
        }
    }

    pub fn table(&self) -> TableSlices<'_> {
        TableSlices {
            identifiers: &self.identifiers,
            parents: &self.parents,
            shares: &self.shares,
        }
    }

    pub fn events(&self) -> EventSlices<'_> {
        EventSlices {
            classes: &self.classes,
            lengths: &self.lengths,
        }
    }

    pub fn run(&self, room: &mut Room) -> Answer {
        second::run(self.table(), self.events(), room.lend())
    }
}

/// Room with so many spare words, filled with numbers that no run writes.
pub fn marked(rows: usize, events: usize, spare: usize) -> Room {
    Room {
        order: filled(events + spare, 4_000_000_000),
        report: filled(5 * rows + spare, 5_000_000_000_000_000_000),
        lags: filled(rows + spare, -6_000_000_000_000_000_000),
        working: filled(events + spare, 3_000_000_000),
    }
}

/// Numbers that differ from word to word, so that moved words are seen too.
fn filled<T: From<u8> + Copy + std::ops::Add<Output = T>>(length: usize, first: T) -> Vec<T> {
    (0..length).map(|i| first + T::from(i as u8)).collect()
}

/// What an accepted run has given.
#[derive(Debug, PartialEq, Eq)]
pub struct Outcome {
    pub order: Vec<u32>,
    pub report: Vec<[u64; 5]>,
    pub lags: Vec<i64>,
}

impl Outcome {
    pub fn held(&self) -> Vec<u64> {
        self.report.iter().map(|r| r[4]).collect()
    }

    pub fn root_virtual_time(&self) -> u64 {
        self.report[0][3]
    }
}

/// Runs a case that must be accepted, and looks at every lent word.
pub fn accepted(rows: &[Row], events: &[Event]) -> Outcome {
    let before = marked(rows.len(), events.len(), 3);
    let mut after = before.clone();
    let answer = Columns::new(rows, events).run(&mut after);
    assert_eq!((answer.number, answer.place, answer.second), (0, 0, 0));
    let count = answer.count as usize;
    assert_eq!(after.order[count..], before.order[count..]);
    assert_eq!(
        after.report[5 * rows.len()..],
        before.report[5 * rows.len()..]
    );
    assert_eq!(after.lags[rows.len()..], before.lags[rows.len()..]);
    assert_eq!(
        after.working[events.len()..],
        before.working[events.len()..]
    );
    assert!(after.working[..events.len()].iter().all(|word| *word == 0));
    Outcome {
        order: after.order[..count].to_vec(),
        report: after.report[..5 * rows.len()]
            .chunks_exact(5)
            .map(|c| [c[0], c[1], c[2], c[3], c[4]])
            .collect(),
        lags: after.lags[..rows.len()].to_vec(),
    }
}

/// Runs columns that must be refused; gives number, place and second place.
pub fn refused_columns(columns: &Columns, room: &Room) -> (u32, u32, u32) {
    let mut after = room.clone();
    let answer = columns.run(&mut after);
    assert_ne!(answer.number, 0);
    assert_eq!(answer.count, 0);
    assert_eq!(&after, room);
    (answer.number, answer.place, answer.second)
}

/// Runs a case that must be refused, with slices long enough.
pub fn refused(rows: &[Row], events: &[Event]) -> (u32, u32, u32) {
    let room = marked(rows.len(), events.len(), 3);
    refused_columns(&Columns::new(rows, events), &room)
}

/// A root and a chain of classes down to this depth, each with the whole of its parent.
pub fn chain(depth: u32) -> Vec<Row> {
    let mut rows = vec![ROOT];
    for at in 1..=depth {
        rows.push((at * 10, if at == 1 { 1 } else { (at - 1) * 10 }, 840));
    }
    rows
}

/// A root with this many rows in all, each class with share 3.
pub fn wide(rows: u32) -> Vec<Row> {
    let mut table = vec![ROOT];
    table.extend((1..rows).map(|row| (row + 1000, 1, 3)));
    table
}
