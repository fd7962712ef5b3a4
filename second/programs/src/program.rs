//! The program `second` from its arguments to the bytes it prints, and what all programs read alike.

use std::ffi::{OsStr, OsString};

use crate::answer::Answer;
use crate::csv::{self, Columns};
use crate::files::{at_fault, Source};
use crate::print::{answers_text, results_text, Form};
use crate::run::run;
use crate::sentences::{sentence, table_sentence};
use crate::slices::{EventSlices, Room, TableSlices};
use crate::text;

pub use crate::response::{answer, Response, DONE, FAILED, REFUSED};

/// Bytes that are lent for a table's text.
pub const MOST_TEXT: usize = 65_536;

/// Answers the arguments that follow the program's name.
pub fn respond(arguments: &[OsString]) -> Response {
    read_and_replay(arguments).unwrap_or_else(|said| said)
}

/// The error is what is said where there are no results.
fn read_and_replay(arguments: &[OsString]) -> Result<Response, Response> {
    let [table, events] = arguments else {
        let wanted = "give a class table and an event list, second TABLE EVENTS";
        return Err(Response::misunderstood(wanted));
    };
    let [table_file, event_file] = Source::both(table, events)?;
    let columns = read_table(Form::Run, table_file)?;
    let [classes, lengths] = read_events(event_file)?;
    let table = columns.slices();
    let events = EventSlices {
        classes: &classes,
        lengths: &lengths,
    };
    let results = replay(table, events).map_err(|answer| {
        let file = at_fault(answer.number, table_file, event_file);
        let rest = sentence(&answer, &table, &events).unwrap_or_default();
        Response::refused(Form::Run, file, &[(answer, rest)])
    })?;
    Ok(Response::done(results))
}

/// The table in a file, or what is said of its text.
pub(crate) fn read_table(form: Form, file: Source) -> Result<Columns, Response> {
    let bytes = file.read(MOST_TEXT)?;
    let lent = &bytes[..bytes.len().min(MOST_TEXT)];
    csv::read(lent, bytes.len()).map_err(|fault| {
        let refusal = (fault.answer(), fault.sentence(&bytes));
        Response::refused(form, Some(file.name()), &[refusal])
    })
}

/// What is said of a table that is refused for these reasons.
pub(crate) fn refused_table(
    form: Form,
    file: Source,
    table: &TableSlices,
    answers: &[Answer],
) -> Response {
    let rest = |answer: &Answer| table_sentence(answer, table).unwrap_or_default();
    let refusals: Vec<_> = answers.iter().map(|a| (*a, rest(a))).collect();
    Response::refused(form, Some(file.name()), &refusals)
}

fn read_events(file: Source) -> Result<[Vec<u32>; 2], Response> {
    text::read_events(&file.read(usize::MAX)?).map_err(|fault| faulty_events(file, &fault))
}

/// What is said of a list that cannot be read.
pub(crate) fn faulty_events(file: Source, fault: &text::Fault) -> Response {
    let rest = format!(", line {}: {}", fault.line, fault.what);
    Response::cannot_read(file.name(), &rest)
}

/// The number in the argument of this name, or what is said of it.
pub(crate) fn read_argument(name: &str, argument: &OsStr) -> Result<u32, Response> {
    text::read_number(argument.as_encoded_bytes())
        .map_err(|why| Response::cannot_read(OsStr::new(name), &format!(": it is {why}")))
}

/// What a run prints, or its refusal.
fn replay(table: TableSlices, events: EventSlices) -> Result<String, Answer> {
    let mut room = Room::new(table.identifiers.len(), events.classes.len());
    let answer = run(table, events, room.lend());
    if answer.number != 0 {
        return Err(answer);
    }
    let order = &room.order[..answer.count as usize];
    let results = results_text(order, table.identifiers, &room.report, &room.lags);
    Ok(answers_text(Form::Run, [&answer]) + &results)
}
