//! One run: the checks in their order, the events one after another, then the results.

use crate::answer::Answer;
use crate::inside::{Choices, Inside};
use crate::report::{self, REPORT_WIDTH};
use crate::scheduler::Scheduler;
use crate::slices::{EventSlices, Lent, Room, TableSlices};
use crate::table::Table;
use crate::tree::{Packet, Tree};

const LEAST_ROWS: usize = 2;
pub const MOST_ROWS: usize = 256;
pub const MOST_EVENTS: usize = 65_536;

/// Replays the events over the table. Nothing lent is written unless all is accepted.
pub fn run(table: TableSlices, events: EventSlices, mut lent: Lent) -> Answer {
    match replay(&table, &events, &mut lent) {
        Ok(answer) | Err(answer) => answer,
    }
}

fn replay(slices: &TableSlices, events: &EventSlices, lent: &mut Lent) -> Result<Answer, Answer> {
    check_lengths(slices, events, lent)?;
    let table = Table::read(slices)?;
    let mut scheduler = Scheduler::new(&table);
    let order = take_all(events, &mut scheduler)?;
    let count = order.len();
    report::write(&scheduler, order, lent);
    Ok(Answer::done(count))
}

/// The same run with its choices counted, and no results; or its refusal.
pub fn inside(slices: TableSlices, events: EventSlices) -> Result<Inside, Answer> {
    let mut room = Room::new(slices.identifiers.len(), events.classes.len());
    check_lengths(&slices, &events, &room.lend())?;
    let table = Table::read(&slices)?;
    let mut choices = Choices::default();
    let mut scheduler = Scheduler {
        tree: Tree::counting(&table, &mut choices),
        ..Scheduler::new(&table)
    };
    take_all(&events, &mut scheduler)?;
    let place = |packet: Packet| packet.place;
    let rows = scheduler.tree.rows.iter();
    let heads = rows.map(|row| row.head.map(place)).collect();
    Ok(Inside { choices, heads })
}

/// Refusals 1, 2 and 3.
fn check_lengths(table: &TableSlices, events: &EventSlices, lent: &Lent) -> Result<(), Answer> {
    check_rows(table)?;
    let count = events.classes.len();
    if events.lengths.len() != count || count > MOST_EVENTS {
        return Err(Answer::refused(2, 0));
    }
    check_room(table.identifiers.len(), count, lent)
}

/// Refusal 3 for the results of so many rows and events.
pub(crate) fn check_room(rows: usize, events: usize, lent: &Lent) -> Result<(), Answer> {
    let events_short = lent.order.len() < events || lent.working.len() < events;
    let rows_short = lent.report.len() < REPORT_WIDTH * rows || lent.lags.len() < rows;
    match events_short || rows_short {
        true => Err(Answer::refused(3, 0)),
        false => Ok(()),
    }
}

/// Refusal 1.
pub(crate) fn check_rows(table: &TableSlices) -> Result<(), Answer> {
    let rows = table.identifiers.len();
    if table.parents.len() != rows || table.shares.len() != rows {
        return Err(Answer::refused(1, 0));
    }
    check_row_count(rows)
}

/// Refusal 1 for so many rows.
pub(crate) fn check_row_count(rows: usize) -> Result<(), Answer> {
    match (LEAST_ROWS..=MOST_ROWS).contains(&rows) {
        true => Ok(()),
        false => Err(Answer::refused(1, 0)),
    }
}

/// Takes the events one after another, up to the first that is refused. Gives the packets in the
/// order in which they went on the line.
fn take_all(events: &EventSlices, scheduler: &mut Scheduler) -> Result<Vec<u32>, Answer> {
    let mut order = Vec::new();
    for (place, (class, length)) in events.classes.iter().zip(events.lengths).enumerate() {
        let event = scheduler.meet(*class, *length);
        let event = event.map_err(|number| Answer::refused(number, place))?;
        order.extend(scheduler.take(event));
    }
    Ok(order)
}
