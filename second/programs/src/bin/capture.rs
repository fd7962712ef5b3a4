//! The program `capture CAPTURE TABLE FIRST SECOND THIRD RATE`.
#![forbid(unsafe_code)]

use std::process::ExitCode;

fn main() -> ExitCode {
    second::program::answer(second::capture::respond)
}
