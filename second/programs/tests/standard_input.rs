//! `-` in the place of a file, and the name that sentences have for it.

use std::fs::{self, File};
use std::io::Write;
use std::path::Path;
use std::process::{Command, Stdio};

use second::capture::MOST_CAPTURE;

use crate::common::calls::{calls, Call};
use crate::common::files::{
    by, event_text, failed, file, path, refused, table_text, Printed, CAPTURE, PROMISE, SECOND,
    TABLE,
};
use crate::common::{HALVES, P1_EVENTS, ROOT};

const TWICE: &str = "cannot read: standard input is named twice; give one of the two as a file";

fn open(path: impl AsRef<Path>) -> File {
    File::open(path).expect("the test's file can be read")
}

/// What the call prints with `-` in this place and these bytes as its input.
fn fed(test: &str, call: &Call, place: usize, bytes: &[u8]) -> Printed {
    let input = file(&format!("{test}.input"), bytes);
    by(call.with(place, "-").command().stdin(open(input)))
}

#[test]
fn each_file_may_be_standard_input() {
    for call in calls("input_each") {
        let expected = by(&mut call.command());
        assert_eq!(expected.status, Some(0));
        for place in 0..call.files {
            let bytes = fs::read(&call.arguments[place]).expect("the test's file can be read");
            assert_eq!(
                fed("input_each", &call, place, &bytes),
                expected,
                "{call:?}"
            );
        }
    }
}

#[test]
fn a_pipe_is_read_to_its_end() {
    let table = file("input_pipe.table", table_text(&HALVES).as_bytes());
    let mut child = Command::new(SECOND)
        .args([table.as_path(), Path::new("-")])
        .stdin(Stdio::piped())
        .stdout(Stdio::piped())
        .spawn()
        .expect("the program can be started");
    let mut input = child.stdin.take().expect("it has an input");
    for line in event_text(&P1_EVENTS).lines() {
        writeln!(input, "{line}").expect("the program reads");
    }
    drop(input);
    let done = child.wait_with_output().expect("the program ends");
    let [call, ..] = calls("input_pipe");
    let expected = by(&mut call.command());
    assert_eq!(String::from_utf8_lossy(&done.stdout), expected.output);
}

#[test]
fn standard_input_is_not_named_twice() {
    let numbers = ["x", "4294967296", "", "0"];
    assert_eq!(by(Command::new(SECOND).args(["-", "-"])), failed(TWICE));
    let call = by(Command::new(CAPTURE).args(["-", "-"]).args(numbers));
    assert_eq!(call, failed(TWICE));
}

#[test]
fn the_number_of_arguments_comes_before_what_they_are() {
    for program in [SECOND, CAPTURE, TABLE] {
        let said = by(Command::new(program).args(["-"; 3]));
        assert!(said.error.starts_with("cannot read: give a "), "{said:?}");
    }
}

#[test]
fn a_dash_is_no_number() {
    let said = by(Command::new(PROMISE).args(["-", "-"]));
    let expected = "cannot read LARGEST: it is not a decimal number";
    assert_eq!(said, failed(expected));
}

#[test]
fn a_file_of_that_name_is_named_with_its_folder() {
    let folder = path("input_folder");
    fs::create_dir_all(&folder).expect("the test's folder can be made");
    fs::write(folder.join("-"), "").expect("the test's file can be written");
    let empty = "the text is empty; begin it with the heading identifier,parent,share.";
    for events in ["-", "./-"] {
        let said = by(Command::new(SECOND)
            .args(["./-", events])
            .current_dir(&folder));
        let sentence = format!("refused 47 in ./-: {empty}");
        assert_eq!(said, refused("47,1,0,0", &sentence));
    }
}

#[test]
fn a_table_that_is_refused_has_that_name() {
    let refusals = [
        (
            String::new(),
            "47,1,0,0",
            "refused 47 in standard input: the text is empty; \
             begin it with the heading identifier,parent,share.",
        ),
        (
            table_text(&[ROOT]),
            "1,0,0,0",
            "refused 1 in standard input: the table has 1 row; give it 2 to 256.",
        ),
        (
            table_text(&[ROOT, (10, 1, 0)]),
            "8,1,0,0",
            "refused 8 in standard input: row 1 (line 3), class 10, has share 0; \
             give it a share from 1 to 840.",
        ),
    ];
    for call in calls("input_table") {
        for (text, numbers, sentence) in &refusals {
            let said = fed("input_table", &call, call.table, text.as_bytes());
            assert_eq!(said, refused(numbers, sentence), "{call:?}");
        }
    }
}

#[test]
fn a_list_that_is_refused_or_cannot_be_read_has_that_name() {
    let [second, ..] = calls("input_events");
    let said = fed("input_events", &second, 1, b"class,length\n10,1\n77,1\n");
    let sentence = "refused 11 in standard input: event 1 (line 3) is for class 77, \
                    which no row has; name a class of the table.";
    assert_eq!(said, refused("11,1,0,0", sentence));
    let said = fed("input_events", &second, 1, b"class,length\n10\n");
    let sentence = "cannot read standard input, line 2: 2 numbers are wanted";
    assert_eq!(said, failed(sentence));
}

#[test]
fn a_capture_that_is_refused_or_too_long_has_that_name() {
    let [_, _, capture, _] = calls("input_capture");
    let said = fed("input_capture", &capture, 0, b"");
    let sentence = "refused 31 in standard input: of the 24 bytes of a file header \
                    the capture has 0; give a whole capture.";
    assert_eq!(said, refused("31,0,0,0", sentence));
    let said = fed("input_capture", &capture, 0, &vec![0; MOST_CAPTURE + 1]);
    let sentence = "cannot read standard input: it has more than 4194304 bytes; \
                    cut its packets down, say with editcap -F pcap -s 64";
    assert_eq!(said, failed(sentence));
}

/// The other file of a call is at fault under its own name.
#[test]
fn a_file_beside_it_keeps_its_name() {
    let [second, _, capture, _] = calls("input_beside");
    let table = table_text(&HALVES);
    let missing = failed("cannot read no such file: there is no such file");
    for (call, place) in [(second, 1), (capture, 0)] {
        let other = call.table;
        let call = call.with(place, "no such file");
        assert_eq!(fed("input_beside", &call, other, table.as_bytes()), missing);
    }
}

#[test]
fn standard_input_that_cannot_be_read() {
    let written = file("input_written", b"");
    for call in calls("input_unread") {
        for place in 0..call.files {
            let call = call.with(place, "-");
            let said = by(call.command().stdin(open(path(""))));
            let folder = "cannot read standard input: it is a folder";
            assert_eq!(said, failed(folder), "{call:?}");
            let unreadable = File::options().write(true).open(&written);
            let unreadable = unreadable.expect("the test's file can be written");
            let said = by(call.command().stdin(unreadable));
            let closed = "cannot read standard input: the system refuses it with error 9";
            assert_eq!(said, failed(closed), "{call:?}");
        }
    }
}

/// A table's text is not read beyond what tells that it is too long.
#[test]
fn a_table_without_end_is_too_long() {
    let sentence = "refused 40 in standard input: the text has more than 65536 bytes; \
                    no table has more than 4371: give it 2 to 256 rows.";
    let said = by(Command::new(TABLE).arg("-").stdin(open("/dev/zero")));
    assert_eq!(said, refused("40,0,0,0", sentence));
}
