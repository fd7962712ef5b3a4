//! The program `capture` from its arguments to the bytes it prints.

use std::ffi::OsString;

use crate::answer::Answer;
use crate::capture::list::{Arrival, Trip};
use crate::capture::refusals::Refusal;
use crate::capture::{send, Capture};
use crate::csv::LINE_END;
use crate::files::{at_fault, Source};
use crate::print::{answers_text, Form};
use crate::program::{read_argument, read_table, Response};
use crate::run::MOST_EVENTS;
use crate::slices::{EventRoom, Room, TableSlices};

/// Bytes of the longest capture that is read.
pub const MOST_CAPTURE: usize = 4_194_304;

/// Answers the arguments that follow the program's name.
pub fn respond(arguments: &[OsString]) -> Response {
    read_and_replay(arguments).unwrap_or_else(|said| said)
}

/// The error is what is said where there are no results.
fn read_and_replay(arguments: &[OsString]) -> Result<Response, Response> {
    let [capture, table, first, second, third, rate] = arguments else {
        let wanted = "give a capture, a class table, three classes and a rate, \
                      capture CAPTURE TABLE FIRST SECOND THIRD RATE";
        return Err(Response::misunderstood(wanted));
    };
    let [capture_file, table_file] = Source::both(capture, table)?;
    let classes = [
        read_argument("FIRST", first)?,
        read_argument("SECOND", second)?,
        read_argument("THIRD", third)?,
    ];
    let rate = read_argument("RATE", rate)?;
    let bytes = read_capture(capture_file)?;
    let table = read_table(Form::Run, table_file)?;
    let capture = Capture {
        bytes: &bytes,
        classes,
        rate,
    };
    let results = replay(&capture, &table.slices()).map_err(|refusal| {
        let answer = refusal.answer();
        let file = at_fault(answer.number, table_file, capture_file);
        let rest = refusal.sentence(&table.slices());
        Response::refused(Form::Run, file, &[(answer, rest)])
    })?;
    Ok(Response::done(results))
}

fn read_capture(file: Source) -> Result<Vec<u8>, Response> {
    let bytes = file.read(MOST_CAPTURE)?;
    if bytes.len() > MOST_CAPTURE {
        let why = format!(
            ": it has more than {MOST_CAPTURE} bytes; \
             cut its packets down, say with editcap -F pcap -s 64"
        );
        return Err(Response::cannot_read(file.name(), &why));
    }
    Ok(bytes)
}

/// What a replay prints, or its refusal.
fn replay(capture: &Capture, table: &TableSlices) -> Result<String, Refusal> {
    let mut room = Room::new(table.identifiers.len(), MOST_EVENTS);
    let mut list = [vec![0; MOST_EVENTS], vec![0; MOST_EVENTS]];
    let [classes, lengths] = &mut list;
    let trips = send(capture, table, EventRoom { classes, lengths }, room.lend())?;
    let answer = Answer::done(trips.len());
    Ok(answers_text(Form::Run, [&answer]) + &trips_text(&trips))
}

/// The heading and a line for each packet, in sending order.
fn trips_text(trips: &[Trip]) -> String {
    let mut text = format!("packet,record,class,length,arrived,sent,finished{LINE_END}");
    // The first record finds the line idle, so that its packet is the first one sent.
    let first = trips.first().map_or(0, |trip| trip.sent);
    for trip in trips {
        let Arrival {
            record,
            class,
            length,
            stamp,
        } = trip.arrival;
        let [arrived, sent, finished] =
            [stamp, trip.sent, trip.finished].map(|moment| moment - first);
        text.push_str(&format!(
            "{},{record},{class},{length},{arrived},{sent},{finished}{LINE_END}",
            trip.packet
        ));
    }
    text
}
