//! The program `promise TABLE LARGEST [OWN [PACKETS]]`.
#![forbid(unsafe_code)]

use std::process::ExitCode;

fn main() -> ExitCode {
    second::program::answer(second::promise::respond)
}
