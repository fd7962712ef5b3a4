//! A call of each program that is accepted, to be tried with other files and streams.

use std::ffi::{OsStr, OsString};
use std::process::Command;

use super::captures::{FIRST, MICRO};
use super::files::{event_text, file, table_text, CAPTURE, PROMISE, SECOND, TABLE};
use super::{HALVES, P1_EVENTS};

#[derive(Clone, Debug)]
pub struct Call {
    program: &'static str,
    pub arguments: Vec<OsString>,
    /// How many of the arguments, the first ones, name files.
    pub files: usize,
    /// Which of them is the table.
    pub table: usize,
}

impl Call {
    /// The same with this argument in this place.
    pub fn with(&self, place: usize, argument: impl AsRef<OsStr>) -> Call {
        let mut other = self.clone();
        other.arguments[place] = argument.as_ref().to_os_string();
        other
    }

    pub fn command(&self) -> Command {
        let mut command = Command::new(self.program);
        command.args(&self.arguments);
        command
    }
}

/// `second`, `promise`, `capture` and `table` over files of this test.
pub fn calls(test: &str) -> [Call; 4] {
    let table = file(&format!("{test}.table"), table_text(&HALVES).as_bytes());
    let events = file(&format!("{test}.events"), event_text(&P1_EVENTS).as_bytes());
    let capture = file(&format!("{test}.pcap"), &MICRO.capture(&[(5, FIRST, 100)]));
    let [table, events, capture] = [table, events, capture].map(|path| path.into_os_string());
    let call = |program, files: &[&OsString], numbers: &[&str]| Call {
        program,
        arguments: files
            .iter()
            .map(|file| (*file).clone())
            .chain(numbers.iter().map(OsString::from))
            .collect(),
        files: files.len(),
        table: usize::from(files[0] != &table),
    };
    [
        call(SECOND, &[&table, &events], &[]),
        call(PROMISE, &[&table], &["1500"]),
        call(CAPTURE, &[&capture, &table], &["10", "20", "20", "1000000"]),
        call(TABLE, &[&table], &[]),
    ]
}
