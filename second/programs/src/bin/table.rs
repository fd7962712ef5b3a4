//! The program `table TABLE`.
#![forbid(unsafe_code)]

use std::process::ExitCode;

fn main() -> ExitCode {
    second::program::answer(second::table_program::respond)
}
