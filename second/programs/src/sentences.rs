//! A refusal for a person: where it is and what to mend.

use crate::answer::Answer;
use crate::events::MOST_BYTES;
use crate::slices::{EventSlices, TableSlices};
use crate::table::Table;

/// How the sentence ends for a refusal of this table and these events, behind its number and the
/// file; none for an accepted run.
pub fn sentence(answer: &Answer, table: &TableSlices, events: &EventSlices) -> Option<String> {
    let place = answer.place as usize;
    match answer.number {
        2 => Some(list(events)),
        11..=14 => {
            let class = word(events.classes, place);
            let event = RefusedEvent {
                name: event_name(place),
                class,
                length: word(events.lengths, place),
                not_sending: not_sending_class(table, class),
            };
            event.sentence(answer.number)
        }
        _ => table_sentence(answer, table),
    }
}

/// An event that is refused, as sentences have it.
pub(crate) struct RefusedEvent {
    pub name: String,
    pub class: u32,
    pub length: u32,
    /// Its class and why that does not send, if it does not.
    pub not_sending: String,
}

impl RefusedEvent {
    /// How the sentence ends for refusals 11 to 14.
    pub fn sentence(&self, number: u32) -> Option<String> {
        let RefusedEvent {
            name,
            class,
            length,
            not_sending,
        } = self;
        Some(match (number, class) {
            (11, _) => {
                format!("{name} is for class {class}, which no row has; name a class of the table.")
            }
            (12, _) => format!("{name} is for {not_sending}; name a class with no class below it."),
            (13, 0) => {
                format!("{name} is a finish with length {length}; a finish has length 0.")
            }
            (13, _) => format!(
                "{name}, for class {class}, has length {length}; a packet has 1 to {MOST_BYTES} bytes."
            ),
            (14, _) => format!(
                "{name} is a finish while the line is idle; take it out or put an arrival before it."
            ),
            _ => return None,
        })
    }
}

/// The same for a refusal that is not of an event.
pub(crate) fn table_sentence(answer: &Answer, table: &TableSlices) -> Option<String> {
    let place = answer.place as usize;
    Some(match answer.number {
        1 => rows(table),
        3 => "a slice lent for the results is too short.".to_string(),
        4 => format!(
            "{} has identifier 0; give it a number from 1 to 65535.",
            row_name(place)
        ),
        5 => repeated(table, place, answer.second as usize),
        6 => root(table),
        7 => parent(table, place),
        8 => share(table, place),
        9 => depth(table, place),
        10 => sum(table, place),
        15 => large(table, place),
        _ => return None,
    })
}

/// The word at this place; 0 past the end, which no place of a real refusal is.
fn word(slice: &[u32], place: usize) -> u32 {
    slice.get(place).copied().unwrap_or(0)
}

/// A file has its heading in line 1, so place 0 is in line 2.
fn line(place: usize) -> u64 {
    place as u64 + 2
}

fn row_name(row: usize) -> String {
    format!("row {row} (line {})", line(row))
}

fn event_name(event: usize) -> String {
    format!("event {event} (line {})", line(event))
}

fn class_name(table: &TableSlices, row: usize) -> String {
    format!("{}, class {}", row_name(row), word(table.identifiers, row))
}

fn rows(table: &TableSlices) -> String {
    let rows = table.identifiers.len();
    if table.parents.len() != rows || table.shares.len() != rows {
        return "the table's three slices differ in length; make them equal.".to_string();
    }
    let plural = if rows == 1 { "" } else { "s" };
    format!("the table has {rows} row{plural}; give it 2 to 256.")
}

fn list(events: &EventSlices) -> String {
    let count = events.classes.len();
    if events.lengths.len() != count {
        return "the list's two slices differ in length; make them equal.".to_string();
    }
    format!("the list has {count} events; give it at most 65536.")
}

fn large(table: &TableSlices, row: usize) -> String {
    let identifier = word(table.identifiers, row);
    let sent = identifier & 0xffff;
    format!(
        "{} has identifier {identifier}, which the modem cuts to its low 16 bits, {sent}; \
         give it a number from 1 to 65535.",
        row_name(row)
    )
}

fn repeated(table: &TableSlices, row: usize, earlier: usize) -> String {
    format!(
        "{} repeats identifier {} of {}; give one of the two another identifier.",
        row_name(row),
        word(table.identifiers, row),
        row_name(earlier)
    )
}

fn root(table: &TableSlices) -> String {
    let name = class_name(table, 0);
    let (parent, share) = (word(table.parents, 0), word(table.shares, 0));
    if parent != 0 && share != 0 {
        return format!(
            "{name}, has parent {parent} and share {share}, as a class does; \
             the line's own row comes first: put it above, with parent 0 and share 0."
        );
    }
    format!("{name}, is the line itself and has parent {parent} and share {share}; set both to 0.")
}

fn parent(table: &TableSlices, row: usize) -> String {
    format!(
        "{}, has parent {}, which is no earlier row's identifier; \
         name the identifier of a row above it.",
        class_name(table, row),
        word(table.parents, row)
    )
}

fn share(table: &TableSlices, row: usize) -> String {
    format!(
        "{}, has share {}; give it a share from 1 to 840.",
        class_name(table, row),
        word(table.shares, row)
    )
}

fn depth(table: &TableSlices, row: usize) -> String {
    let depth = Table::standing(table).rows.get(row).map_or(0, |r| r.depth);
    format!(
        "{}, has depth {depth}; put it under a class of depth 7 or less.",
        class_name(table, row)
    )
}

fn sum(table: &TableSlices, row: usize) -> String {
    let standing = Table::standing(table);
    let shares: Vec<String> = standing
        .children(row)
        .map(|child| format!("class {} has {}", child.identifier, child.share))
        .collect();
    format!(
        "the children of {}, have shares that add up to {}: {}; bring them to 840 or less.",
        class_name(table, row),
        standing.children_share(row),
        shares.join(", ")
    )
}

/// A class that has a row and does not send, with why.
pub(crate) fn not_sending_class(table: &TableSlices, class: u32) -> String {
    let found = table.identifiers.iter().position(|i| *i == class);
    let row = found.unwrap_or(0);
    let why = not_sending(row);
    format!("class {class}, {}, which {why}", row_name(row))
}

/// Why the row, which does not send, does not.
pub(crate) fn not_sending(row: usize) -> &'static str {
    match row {
        0 => "is the line itself",
        _ => "has classes below it",
    }
}
