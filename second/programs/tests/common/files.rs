//! Running the built programs over text files.

use std::ffi::OsStr;
use std::fs;
use std::path::PathBuf;
use std::process::Command;

use super::{Event, Row};

/// What a program printed, and the status that it ended with.
#[derive(Debug, PartialEq, Eq)]
pub struct Printed {
    pub output: String,
    pub error: String,
    pub status: Option<i32>,
}

/// The text with CR LF at the end of each line, as tables and results have it.
pub fn with_cr(text: &str) -> String {
    text.replace('\n', "\r\n")
}

/// Results, of which the lines are given with plain ends.
pub fn results(output: &str) -> Printed {
    printed(&with_cr(output))
}

/// Results, as they are given.
pub fn printed(output: &str) -> Printed {
    Printed {
        output: output.to_string(),
        error: String::new(),
        status: Some(0),
    }
}

/// Refusals, as lines of numbers and of sentences with plain ends.
pub fn refused(numbers: &str, sentences: &str) -> Printed {
    Printed {
        output: with_cr(&format!("answer,place,second,count\n{numbers}\n")),
        error: format!("{sentences}\n"),
        status: Some(1),
    }
}

/// A sentence and nothing else.
pub fn failed(sentence: &str) -> Printed {
    Printed {
        output: String::new(),
        error: format!("{sentence}\n"),
        status: Some(2),
    }
}

/// The sentences with the names of this test's files for TABLE, EVENTS and CAPTURE.
pub fn named(test: &str, sentences: &str) -> String {
    let mut named = sentences.to_string();
    for (word, end) in [
        ("TABLE", "table"),
        ("EVENTS", "events"),
        ("CAPTURE", "pcap"),
    ] {
        let name = path(&format!("{test}.{end}"));
        named = named.replace(
            &format!(" in {word}: "),
            &format!(" in {}: ", name.display()),
        );
    }
    named
}

pub fn table_text(rows: &[Row]) -> String {
    let lines = rows.iter().map(|(i, p, s)| format!("{i},{p},{s}\r\n"));
    format!("identifier,parent,share\r\n{}", lines.collect::<String>())
}

pub fn event_text(events: &[Event]) -> String {
    let lines = events.iter().map(|(c, l)| format!("{c},{l}\n"));
    format!("class,length\n{}", lines.collect::<String>())
}

/// Where a file of this name is or would be, in the build's own place for such files.
pub fn path(name: &str) -> PathBuf {
    PathBuf::from(env!("CARGO_TARGET_TMPDIR")).join(name)
}

/// A file for the test of this name.
pub fn file(name: &str, bytes: &[u8]) -> PathBuf {
    let path = path(name);
    fs::write(&path, bytes).expect("the test's file can be written");
    path
}

pub const SECOND: &str = env!("CARGO_BIN_EXE_second");
pub const PROMISE: &str = env!("CARGO_BIN_EXE_promise");
pub const CAPTURE: &str = env!("CARGO_BIN_EXE_capture");
pub const TABLE: &str = env!("CARGO_BIN_EXE_table");
pub const LIVE: &str = env!("CARGO_BIN_EXE_live");

/// Runs `second` with these arguments.
pub fn program<A: AsRef<OsStr>>(arguments: &[A]) -> Printed {
    by(Command::new(SECOND).args(arguments))
}

/// Runs `promise` with these arguments.
pub fn promise<A: AsRef<OsStr>>(arguments: &[A]) -> Printed {
    by(Command::new(PROMISE).args(arguments))
}

/// Runs `capture` with these arguments.
pub fn capture<A: AsRef<OsStr>>(arguments: &[A]) -> Printed {
    by(Command::new(CAPTURE).args(arguments))
}

/// Runs `table` with these arguments.
pub fn table<A: AsRef<OsStr>>(arguments: &[A]) -> Printed {
    by(Command::new(TABLE).args(arguments))
}

/// What a program prints where its streams are not set otherwise; its input is empty then.
pub fn by(command: &mut Command) -> Printed {
    let done = command.output().expect("the program can be started");
    Printed {
        output: String::from_utf8_lossy(&done.stdout).into_owned(),
        error: String::from_utf8_lossy(&done.stderr).into_owned(),
        status: done.status.code(),
    }
}

/// Runs the program over two files with these bytes.
pub fn over_bytes(test: &str, table: &[u8], events: &[u8]) -> Printed {
    let table = file(&format!("{test}.table"), table);
    let events = file(&format!("{test}.events"), events);
    program(&[table, events])
}

/// Runs the program over two files that hold these rows and events.
pub fn over_rows(test: &str, rows: &[Row], events: &[Event]) -> Printed {
    let table = table_text(rows);
    let events = event_text(events);
    over_bytes(test, table.as_bytes(), events.as_bytes())
}
