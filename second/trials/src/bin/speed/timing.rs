//! Times the two programs over one list or capture, in turn.

use std::ffi::OsString;
use std::io::{Error, Result};
use std::path::Path;
use std::process::{Command, Stdio};
use std::time::Instant;

use trials::{Bench, Files, Times};

/// Times of the two programs over the files, in milliseconds, after one run of each that is not measured.
pub fn times(bench: &Bench, files: &Files, runs: usize) -> Result<[Times; 2]> {
    let both = bench.run(files)?;
    if both.agreed() != Some(0) {
        return Err(Error::other("the two programs do not do the list alike"));
    }
    let mut times = [Times::default(), Times::default()];
    for _ in 0..runs {
        for (path, times) in bench.paths(both.asked.program).iter().zip(&mut times) {
            times.add(measured(path, &both.asked.arguments)?);
        }
    }
    Ok(times)
}

fn measured(program: &Path, arguments: &[OsString]) -> Result<f64> {
    let mut command = Command::new(program);
    command
        .args(arguments)
        .stdin(Stdio::null())
        .stdout(Stdio::null());
    let begun = Instant::now();
    let status = command.status()?;
    let time = begun.elapsed().as_secs_f64() * 1000.0;
    match status.code() {
        Some(_) => Ok(time),
        None => Err(Error::other(format!("{} was killed", program.display()))),
    }
}
