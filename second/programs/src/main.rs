//! The program `second TABLE EVENTS`.
#![forbid(unsafe_code)]

use std::process::ExitCode;

fn main() -> ExitCode {
    second::program::answer(second::program::respond)
}
