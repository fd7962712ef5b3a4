//! How a program that counts ends.

use std::env;
use std::ffi::OsString;
use std::io::Result;
use std::process::ExitCode;

/// Does the work with the arguments that follow the program's name. It prints its own counts
/// and gives whether nothing failed; if it cannot be done, that is said and is one failure.
pub fn counted(name: &str, work: fn(&[OsString]) -> Result<bool>) -> ExitCode {
    let arguments: Vec<OsString> = env::args_os().skip(1).collect();
    match work(&arguments) {
        Ok(true) => ExitCode::SUCCESS,
        Ok(false) => ExitCode::FAILURE,
        Err(said) => {
            println!("{name}: {said}\n0 passed, 1 failed");
            ExitCode::FAILURE
        }
    }
}
