//! The bytes of the files that programs are run over, and the lines they consist of.

use std::ffi::OsString;

use crate::{Case, Program, Random};

/// A file that is not there has no bytes.
#[derive(Clone, Debug, Default, PartialEq, Eq)]
pub struct Files {
    pub table: Option<Vec<u8>>,
    pub events: Option<Vec<u8>>,
    /// Where a sheet is asked for and not a run: the arguments after the table.
    pub sheet: Option<Vec<OsString>>,
    /// Where a capture is replayed and not a list.
    pub capture: Option<CaptureFile>,
    /// Where the table alone is asked for.
    pub alone: bool,
}

#[derive(Clone, Debug, Default, PartialEq, Eq)]
pub struct CaptureFile {
    pub bytes: Option<Vec<u8>>,
    /// The arguments after the table.
    pub numbers: Vec<OsString>,
}

impl Files {
    pub fn of(case: &Case) -> Files {
        Files {
            table: Some(case.table_text().into_bytes()),
            events: Some(case.event_text().into_bytes()),
            ..Files::default()
        }
    }

    /// The program that they are for.
    pub fn program(&self) -> Program {
        match (&self.capture, &self.sheet, self.alone) {
            (Some(_), _, _) => Program::Capture,
            (None, Some(_), _) => Program::Promise,
            (None, None, true) => Program::Table,
            (None, None, false) => Program::Replay,
        }
    }

    /// Now and then other line ends or leading zeros in the list, where they are read alike.
    pub fn disguise(&mut self, random: &mut Random) {
        let Some(bytes) = &mut self.events else {
            return;
        };
        match random.below(8) {
            0 | 1 => *bytes = edited(bytes, with_cr),
            2 => *bytes = edited(bytes, |line| some_with_cr(line, random)),
            3 => *bytes = edited(bytes, |line| with_zeros(line, random)),
            _ => {}
        }
    }
}

/// The lines, each with its end.
pub fn lines(bytes: &[u8]) -> Vec<Vec<u8>> {
    let lines = bytes.split_inclusive(|b| *b == b'\n');
    lines.map(<[u8]>::to_vec).collect()
}

fn edited(bytes: &[u8], edit: impl FnMut(Vec<u8>) -> Vec<u8>) -> Vec<u8> {
    lines(bytes)
        .into_iter()
        .map(edit)
        .collect::<Vec<_>>()
        .concat()
}

fn with_cr(mut line: Vec<u8>) -> Vec<u8> {
    if line.pop() == Some(b'\n') {
        line.extend(b"\r\n");
    }
    line
}

fn some_with_cr(line: Vec<u8>, random: &mut Random) -> Vec<u8> {
    match random.one_in(2) {
        true => with_cr(line),
        false => line,
    }
}

/// Puts zeros before the first number of some lines.
fn with_zeros(line: Vec<u8>, random: &mut Random) -> Vec<u8> {
    match line.first() {
        Some(byte) if byte.is_ascii_digit() && random.one_in(3) => {
            let zeros = vec![b'0'; random.between(1, 30)];
            [zeros, line].concat()
        }
        _ => line,
    }
}
