//! What a program answers, its results, sentences and status, and handing these over.

use std::env;
use std::ffi::{OsStr, OsString};
use std::fs::File;
use std::io::{self, Write};
use std::os::fd::AsFd;
use std::process::ExitCode;

use crate::answer::Answer;
use crate::print::{answers_text, Form};

/// The program has done what it was called for.
pub const DONE: u8 = 0;
/// The answer's number is not 0.
pub const REFUSED: u8 = 1;
/// It could not read, write or understand the call.
pub const FAILED: u8 = 2;

const EBADF: i32 = 9;
const ENOSPC: i32 = 28;
const EPIPE: i32 = 32;

/// What goes to standard output and to standard error, and the status that a program ends with.
#[derive(Debug, PartialEq, Eq)]
pub struct Response {
    pub output: Vec<u8>,
    pub error: Vec<u8>,
    pub status: u8,
}

impl Response {
    pub(crate) fn done(results: String) -> Response {
        Response {
            output: results.into_bytes(),
            error: Vec::new(),
            status: DONE,
        }
    }

    /// The answers, and for each a sentence that ends as it is given here. All of them name the
    /// file, if one is at fault.
    pub(crate) fn refused(
        form: Form,
        file: Option<&OsStr>,
        refusals: &[(Answer, String)],
    ) -> Response {
        let sentence = |(answer, rest): &(Answer, String)| sentence(answer.number, file, rest);
        let answers = refusals.iter().map(|(answer, _)| answer);
        Response {
            output: answers_text(form, answers).into_bytes(),
            error: refusals.iter().flat_map(sentence).collect(),
            status: REFUSED,
        }
    }

    /// The call itself is at fault.
    pub(crate) fn misunderstood(why: &str) -> Response {
        Response::failed(format!("cannot read: {why}\n").into_bytes())
    }

    /// A file or an argument of this name is at fault; the rest follows the name.
    pub(crate) fn cannot_read(name: &OsStr, rest: &str) -> Response {
        let name = name.as_encoded_bytes();
        Response::failed([b"cannot read ", name, rest.as_bytes(), b"\n"].concat())
    }

    /// A file of this name is at fault; the rest follows the name.
    pub(crate) fn cannot_write(name: &OsStr, rest: &str) -> Response {
        let name = name.as_encoded_bytes();
        Response::failed([b"cannot write ", name, rest.as_bytes(), b"\n"].concat())
    }

    /// All that there is to say has been handed over.
    pub(crate) fn ended(status: u8) -> Response {
        Response {
            output: Vec::new(),
            error: Vec::new(),
            status,
        }
    }

    /// The results met this error on their way out.
    fn unwritten(error: &io::Error) -> Response {
        let why = match error_number(error) {
            // A reader that left, as `head` does, misses nothing.
            EPIPE => return Response::failed(Vec::new()),
            ENOSPC => "the disk is full".to_string(),
            EBADF => "standard output is closed".to_string(),
            number => format!("the system refuses them with error {number}"),
        };
        Response::failed(format!("cannot write the results: {why}\n").into_bytes())
    }

    fn failed(error: Vec<u8>) -> Response {
        Response {
            output: Vec::new(),
            error,
            status: FAILED,
        }
    }
}

/// A file's name is printed as it was given, so this is bytes and not a string.
pub(crate) fn sentence(number: u32, file: Option<&OsStr>, rest: &str) -> Vec<u8> {
    let mut line = format!("refused {number}").into_bytes();
    if let Some(file) = file {
        line.extend_from_slice(b" in ");
        line.extend_from_slice(file.as_encoded_bytes());
    }
    line.extend_from_slice(format!(": {rest}\n").as_bytes());
    line
}

/// The system's number for an error; 0 for one that is Rust's own.
pub(crate) fn error_number(error: &io::Error) -> i32 {
    error.raw_os_error().unwrap_or(0)
}

/// Prints what a program answers to the arguments it was started with, and ends with its status.
pub fn answer(respond: fn(&[OsString]) -> Response) -> ExitCode {
    let arguments: Vec<OsString> = env::args_os().skip(1).collect();
    let response = respond(&arguments);
    let response = match hand_over(&response.output) {
        Ok(()) => response,
        Err(unwritten) => unwritten,
    };
    say(&response.error);
    ExitCode::from(response.status)
}

/// Writes results; the error is what is said where they cannot be written. They are written as to a
/// file: `Stdout` would keep errors for later, and EBADF for itself.
pub(crate) fn hand_over(results: &[u8]) -> Result<(), Response> {
    if results.is_empty() {
        return Ok(());
    }
    let output = io::stdout().as_fd().try_clone_to_owned();
    output
        .and_then(|output| File::from(output).write_all(results))
        .map_err(|error| Response::unwritten(&error))
}

/// Writes sentences. Where they cannot be written there is nobody left to be told.
pub(crate) fn say(sentences: &[u8]) {
    let _ = io::stderr().write_all(sentences);
}

#[cfg(test)]
mod tests {
    use super::*;

    #[test]
    fn results_that_cannot_be_written_have_a_sentence_by_error_number() {
        let sentences = [
            (28, "cannot write the results: the disk is full\n"),
            (9, "cannot write the results: standard output is closed\n"),
            (32, ""),
            (
                5,
                "cannot write the results: the system refuses them with error 5\n",
            ),
            (
                122,
                "cannot write the results: the system refuses them with error 122\n",
            ),
        ];
        for (number, sentence) in sentences {
            let response = Response::unwritten(&io::Error::from_raw_os_error(number));
            assert_eq!(response, Response::failed(sentence.as_bytes().to_vec()));
        }
    }
}
