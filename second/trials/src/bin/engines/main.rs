//! The program `engines RUNS PROGRAM...` prints, as Markdown, how quick the two proved engines and
//! the plain replayer are. The programs are this one again, linked so that the code lies elsewhere:
//! each is called as `PROGRAM time RUNS` for its times.
#![deny(unsafe_code)]

mod inputs;
mod room;
mod shown;
mod timing;

use std::env;
use std::io::{Error, Result};
use std::process::{Command, ExitCode};

use inputs::{parts, Input};
use shown::{print_part, Measured};
use timing::times;
use trials::Times;

fn main() -> ExitCode {
    room::keep();
    let arguments: Vec<String> = env::args().skip(1).collect();
    let arguments: Vec<&str> = arguments.iter().map(String::as_str).collect();
    match done(&arguments) {
        Ok(()) => ExitCode::SUCCESS,
        Err(said) => {
            eprintln!("engines: {said}");
            ExitCode::FAILURE
        }
    }
}

fn done(arguments: &[&str]) -> Result<()> {
    match *arguments {
        ["time", runs] => print_times(some(runs)?),
        [runs, ref programs @ ..] if !programs.is_empty() => print_tables(some(runs)?, programs),
        _ => Err(Error::other("give a number of runs and the programs")),
    }
}

fn some(text: &str) -> Result<usize> {
    match text.parse() {
        Ok(number) if number > 0 => Ok(number),
        _ => Err(Error::other(format!("{text} is no number of runs"))),
    }
}

fn inputs() -> impl Iterator<Item = Input> {
    parts().into_iter().flat_map(|part| part.inputs)
}

/// A line of seconds for each list and each engine.
fn print_times(runs: usize) -> Result<()> {
    for input in inputs() {
        for times in times(&input.case(), runs)? {
            let figures: Vec<String> = times.iter().map(f64::to_string).collect();
            println!("{}", figures.join(" "));
        }
    }
    Ok(())
}

fn print_tables(runs: usize, programs: &[&str]) -> Result<()> {
    let mut measured: Vec<Measured> = inputs().map(|_| Measured::default()).collect();
    for program in programs {
        add_times(program, runs, &mut measured)?;
    }
    println!(
        "Calls in one process, in milliseconds: the best and the median of {runs} runs of each in each of {} \
         programs,\nwhose code lies 16 bytes further in each. The engines are called in turn on the same buffers; \
         the results are\nrefilled before each call, which is not timed.",
        programs.len()
    );
    let mut rest = &measured[..];
    for part in parts() {
        let (own, others) = rest.split_at(part.inputs.len());
        print_part(&part, own);
        rest = others;
    }
    Ok(())
}

/// Adds the times that a program prints.
fn add_times(program: &str, runs: usize, measured: &mut [Measured]) -> Result<()> {
    let run = Command::new(program)
        .args(["time", &runs.to_string()])
        .output()?;
    let said = String::from_utf8_lossy(&run.stdout);
    let all: Vec<&mut Times> = measured.iter_mut().flatten().collect();
    if !run.status.success() || said.lines().count() != all.len() {
        let error = String::from_utf8_lossy(&run.stderr);
        return Err(Error::other(format!("{program} has no times: {error}")));
    }
    for (line, times) in said.lines().zip(all) {
        for figure in line.split(' ') {
            let time = figure.parse();
            times.add(time.map_err(|_| Error::other(format!("{figure} is no time")))?);
        }
    }
    Ok(())
}
