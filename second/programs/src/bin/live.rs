//! The program `live fresh TABLE STATE`, `live events STATE EVENTS` and `live report STATE`.
#![forbid(unsafe_code)]

use std::process::ExitCode;

fn main() -> ExitCode {
    second::program::answer(second::live::respond)
}
