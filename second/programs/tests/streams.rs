//! The status that each program ends with, and results and sentences that cannot be written.

use std::fs::File;
use std::os::fd::OwnedFd;
use std::os::unix::net::UnixDatagram;
use std::path::PathBuf;

use crate::common::calls::{calls, Call};
use crate::common::files::{by, failed, file, path, table_text, Printed};
use crate::common::ROOT;

/// A table that is refused, and a text that has a fault.
fn refusable(test: &str) -> [PathBuf; 2] {
    [
        file(&format!("{test}.refused"), table_text(&[ROOT]).as_bytes()),
        file(&format!("{test}.faulty"), b"x"),
    ]
}

/// Each program's calls over an accepted table, a refused one and a faulty one.
fn with_results(test: &str) -> Vec<Call> {
    let refusable = refusable(test);
    let accepted = calls(test);
    let refused = |call: &Call| {
        refusable
            .each_ref()
            .map(|table| call.with(call.table, table))
    };
    let refused: Vec<Call> = accepted.iter().flat_map(refused).collect();
    accepted.into_iter().chain(refused).collect()
}

fn full() -> File {
    let full = File::options().write(true).open("/dev/full");
    full.expect("there is a device that is full")
}

/// What remains to be seen where the results are not.
fn unwritten(sentence: &str) -> Printed {
    failed(&format!("cannot write the results: {sentence}"))
}

#[test]
fn the_status_says_whether_a_call_is_done_refused_or_not_understood() {
    for (at, call) in with_results("status").into_iter().enumerate() {
        let status = if at < 4 { 0 } else { 1 };
        let said = by(&mut call.command());
        assert_eq!(said.status, Some(status), "{call:?}");
        assert!(said.output.ends_with('\n'));
        assert_eq!(said.error.is_empty(), status == 0);
        let said = by(&mut call.with(0, path("missing")).command());
        assert_eq!((said.status, &said.output[..]), (Some(2), ""));
        let said = by(call.command().args(["1"; 7]));
        assert_eq!((said.status, &said.output[..]), (Some(2), ""));
    }
}

/// A list and a capture are refused with the same status as a table.
#[test]
fn refused_events_have_status_1() {
    let [second, _, capture, _] = calls("status_events");
    let events = file("status_events.idle", b"class,length\n0,0\n");
    assert_eq!(by(&mut second.with(1, events).command()).status, Some(1));
    let header = file("status_events.short", b"");
    assert_eq!(by(&mut capture.with(0, header).command()).status, Some(1));
    assert_eq!(by(&mut capture.with(5, "0").command()).status, Some(1));
    assert_eq!(by(&mut capture.with(2, "77").command()).status, Some(1));
}

#[test]
fn a_full_disk() {
    for call in with_results("disk") {
        let said = by(call.command().stdout(full()));
        assert_eq!(said, unwritten("the disk is full"), "{call:?}");
    }
}

#[test]
fn an_output_that_is_not_open_for_writing() {
    let read = file("output_read", b"");
    for call in with_results("output_closed") {
        let read = File::open(&read).expect("the test's file can be read");
        let said = by(call.command().stdout(read));
        assert_eq!(said, unwritten("standard output is closed"), "{call:?}");
    }
}

#[test]
fn any_other_error_has_its_number() {
    for call in with_results("output_other") {
        let alone = UnixDatagram::unbound().expect("a socket can be made");
        let said = by(call.command().stdout(OwnedFd::from(alone)));
        let other = "the system refuses them with error 107";
        assert_eq!(said, unwritten(other), "{call:?}");
    }
}

#[test]
fn of_a_reader_that_left_nothing_is_said() {
    for call in with_results("reader") {
        let (reader, writer) = std::io::pipe().expect("a pipe can be made");
        drop(reader);
        let expected = Printed {
            output: String::new(),
            error: String::new(),
            status: Some(2),
        };
        assert_eq!(by(call.command().stdout(writer)), expected, "{call:?}");
    }
}

#[test]
fn where_there_are_no_results_none_are_missed() {
    for call in calls("no_results") {
        let call = call.with(0, "missing");
        let said = by(call.command().stdout(full()));
        let expected = "cannot read missing: there is no such file";
        assert_eq!(said, failed(expected));
    }
}

#[test]
fn a_sentence_that_cannot_be_written_changes_nothing() {
    for call in with_results("no_sentence") {
        let usual = by(&mut call.command());
        let expected = Printed {
            error: String::new(),
            ..usual
        };
        assert_eq!(by(call.command().stderr(full())), expected, "{call:?}");
        let said = by(call.command().stdout(full()).stderr(full()));
        assert_eq!(said.status, Some(2));
        let missing = call.with(0, "missing");
        let said = by(missing.command().stderr(full()));
        assert_eq!(said.status, Some(2));
    }
}

/// More than a pipe holds at once.
#[test]
fn long_results_are_written_whole() {
    let [second, ..] = calls("long_results");
    let list = format!("class,length\n{}", "10,1\n0,0\n".repeat(30_000));
    let list = file("long_results.list", list.as_bytes());
    let said = by(&mut second.with(1, list).command());
    assert_eq!(said.output.lines().count(), 2 + 1 + 30_000 + 1 + 3);
    assert_eq!(said.status, Some(0));
}
