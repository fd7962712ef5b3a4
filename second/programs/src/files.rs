//! The files that a call names, of which one may be standard input, and why one cannot be read or
//! written.

use std::ffi::OsStr;
use std::fs::{self, File};
use std::io::{self, ErrorKind, Read, Write};
use std::os::fd::AsFd;

use crate::response::{error_number, Response};

const EPERM: i32 = 1;
const ENOENT: i32 = 2;
const EACCES: i32 = 13;
const ENOTDIR: i32 = 20;
const EISDIR: i32 = 21;
const ENOSPC: i32 = 28;
const EROFS: i32 = 30;
const ENAMETOOLONG: i32 = 36;
const EDQUOT: i32 = 122;

/// An argument that names a file; `-` is standard input.
#[derive(Clone, Copy)]
pub struct Source<'a> {
    argument: &'a OsStr,
}

impl<'a> Source<'a> {
    pub fn new(argument: &'a OsStr) -> Source<'a> {
        Source { argument }
    }

    /// The two of one call, of which one at most is standard input.
    pub fn both(first: &'a OsStr, second: &'a OsStr) -> Result<[Source<'a>; 2], Response> {
        let both = [first, second].map(Source::new);
        if both.iter().all(Source::is_standard_input) {
            let why = "standard input is named twice; give one of the two as a file";
            return Err(Response::misunderstood(why));
        }
        Ok(both)
    }

    pub fn is_standard_input(&self) -> bool {
        self.argument == "-"
    }

    /// As sentences have it.
    pub fn name(&self) -> &'a OsStr {
        match self.is_standard_input() {
            true => OsStr::new("standard input"),
            false => self.argument,
        }
    }

    /// All its bytes, or one more than the most, which tells that there are too many.
    pub fn read(&self, most: usize) -> Result<Vec<u8>, Response> {
        let limit = (most as u64).saturating_add(1);
        let mut bytes = Vec::new();
        let read = self.open()?.take(limit).read_to_end(&mut bytes);
        read.map_err(|error| self.unread(&error))?;
        Ok(bytes)
    }

    /// Standard input too as a file: `Stdin` would say that it is empty where it cannot be read.
    pub fn open(&self) -> Result<File, Response> {
        let opened = match self.is_standard_input() {
            true => io::stdin().as_fd().try_clone_to_owned().map(File::from),
            false => File::open(self.argument),
        };
        opened.map_err(|error| self.unread(&error))
    }

    /// What has come of the open file, up to so many bytes; none where it ends.
    pub fn read_piece(&self, mut file: &File, most: usize) -> Result<Vec<u8>, Response> {
        let mut piece = vec![0; most];
        loop {
            match file.read(&mut piece) {
                Ok(bytes) => {
                    piece.truncate(bytes);
                    return Ok(piece);
                }
                Err(error) if error.kind() == ErrorKind::Interrupted => {}
                Err(error) => return Err(self.unread(&error)),
            }
        }
    }

    /// Opening or reading it met this error.
    fn unread(&self, error: &io::Error) -> Response {
        Response::cannot_read(self.name(), &unreadable(error))
    }
}

/// Writes a file whole: to one beside it, which then takes its name. Where that fails the file stays
/// as it was, and nothing beside it.
pub fn replace(name: &OsStr, bytes: &[u8]) -> Result<(), Response> {
    let mut beside = name.to_os_string();
    beside.push(".new");
    let unwritten = |error: io::Error| Response::cannot_write(name, &unwritable(&error));
    let file = File::create(&beside).map_err(unwritten)?;
    let written = write_to_disk(file, bytes).and_then(|()| fs::rename(&beside, name));
    written.map_err(|error| {
        // Where it cannot be removed there is nothing better to be said.
        let _ = fs::remove_file(&beside);
        unwritten(error)
    })
}

fn write_to_disk(mut file: File, bytes: &[u8]) -> io::Result<()> {
    file.write_all(bytes)?;
    file.sync_all()
}

/// What follows a file's name where writing it met this error.
fn unwritable(error: &io::Error) -> String {
    let why = match error_number(error) {
        ENOSPC | EDQUOT => "the disk is full",
        EACCES | EPERM | EROFS => "this user may not write it",
        ENOENT | ENOTDIR => "there is no such folder",
        EISDIR => "it is a folder",
        ENAMETOOLONG => "its name is too long",
        number => return system_refuses(number),
    };
    format!(": {why}")
}

fn system_refuses(number: i32) -> String {
    format!(": the system refuses it with error {number}")
}

/// What follows a file's name where opening or reading it met this error.
fn unreadable(error: &io::Error) -> String {
    let why = match error_number(error) {
        ENOENT | ENOTDIR => "there is no such file",
        EISDIR => "it is a folder",
        EACCES | EPERM => "this user may not read it",
        ENAMETOOLONG => "its name is too long",
        number => return system_refuses(number),
    };
    format!(": {why}")
}

/// The name of the file that a refusal is of, the table or what the events come from. What is lent
/// and the rate stand in neither.
pub fn at_fault<'a>(number: u32, table: Source<'a>, events: Source<'a>) -> Option<&'a OsStr> {
    match number {
        3 | 30 => None,
        2 | 11..=14 | 31..=38 => Some(events.name()),
        _ => Some(table.name()),
    }
}

#[cfg(test)]
mod tests {
    use super::*;

    #[test]
    fn a_file_that_cannot_be_read_has_a_sentence_by_error_number() {
        let sentences = [
            (1, ": this user may not read it"),
            (2, ": there is no such file"),
            (5, ": the system refuses it with error 5"),
            (13, ": this user may not read it"),
            (20, ": there is no such file"),
            (21, ": it is a folder"),
            (24, ": the system refuses it with error 24"),
            (36, ": its name is too long"),
        ];
        for (number, sentence) in sentences {
            let error = io::Error::from_raw_os_error(number);
            assert_eq!(unreadable(&error), sentence);
        }
    }

    #[test]
    fn a_file_that_cannot_be_written_has_a_sentence_by_error_number() {
        let sentences = [
            (1, ": this user may not write it"),
            (2, ": there is no such folder"),
            (5, ": the system refuses it with error 5"),
            (13, ": this user may not write it"),
            (20, ": there is no such folder"),
            (21, ": it is a folder"),
            (27, ": the system refuses it with error 27"),
            (28, ": the disk is full"),
            (30, ": this user may not write it"),
            (36, ": its name is too long"),
            (122, ": the disk is full"),
        ];
        for (number, sentence) in sentences {
            let error = io::Error::from_raw_os_error(number);
            assert_eq!(unwritable(&error), sentence);
        }
    }

    #[test]
    fn a_refusal_names_the_file_that_it_is_of() {
        let [table, events] = ["a", "-"].map(|argument| Source::new(OsStr::new(argument)));
        let names = |number| at_fault(number, table, events);
        assert!([3, 30].map(names).iter().all(Option::is_none));
        for number in [2].into_iter().chain(11..=14).chain(31..=38) {
            assert_eq!(names(number), Some(OsStr::new("standard input")));
        }
        for number in [1, 15].into_iter().chain(4..=10).chain(40..=47) {
            assert_eq!(names(number), Some(OsStr::new("a")));
        }
    }
}
