//! A refused event of a live box for a person.

use crate::live::{MOST_ACCEPTED, MOST_HELD};
use crate::sentences::{not_sending, RefusedEvent};
use crate::table::Table;

/// How the sentence ends for the refusal of the event in this line, behind its number and the file.
pub fn event_sentence(
    number: u32,
    table: &Table,
    line: usize,
    [class, length]: [u32; 2],
) -> String {
    let name = format!("line {line}");
    match number {
        21 => format!(
            "{name}, for class {class}, comes after {MOST_ACCEPTED} accepted packets, \
             all that a state counts; make a fresh state."
        ),
        22 => format!(
            "{name}, for class {class}, comes while {MOST_HELD} packets are held, \
             all that there is room for; let the line finish some first."
        ),
        _ => {
            let why = not_sending(table.find(class).unwrap_or(0));
            let event = RefusedEvent {
                name,
                class,
                length,
                not_sending: format!("class {class}, which {why}"),
            };
            event.sentence(number).unwrap_or_default()
        }
    }
}
