//! Counts instructions, which unlike times do not hang on where the code lies.

use std::io::{Error, Result};
use std::process::Command;

/// The instructions of one piece of work, named by its places: what is asked, way. It is what
/// ten rounds more add.
pub fn instructions(program: &str, places: [usize; 2]) -> Result<f64> {
    let few = collected(program, places, 10)?;
    let more = collected(program, places, 20)?;
    Ok((more - few) / 10.0)
}

fn collected(program: &str, places: [usize; 2], rounds: usize) -> Result<f64> {
    let run = Command::new("valgrind")
        .args(["--tool=callgrind", "--callgrind-out-file=/dev/null"])
        .args([program, "work"])
        .args(places.iter().chain([&rounds]).map(usize::to_string))
        .output();
    let run = run.map_err(|_| Error::other("valgrind is missing, so nothing is counted"))?;
    let said = String::from_utf8_lossy(&run.stderr);
    let count = said
        .lines()
        .find_map(|line| line.split_once("Collected : "));
    let count = count.and_then(|(_, count)| count.trim().parse().ok());
    count.ok_or_else(|| Error::other("valgrind ran, and counted nothing"))
}
