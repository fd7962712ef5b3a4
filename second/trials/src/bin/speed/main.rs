//! The program `speed PROVED SECOND [RUNS]`: times both folders' programs over the same lists and
//! captures, as Markdown.
#![forbid(unsafe_code)]

mod inputs;
mod timing;

use std::env;
use std::ffi::OsString;
use std::io::{Error, Result};
use std::path::PathBuf;
use std::process::ExitCode;

use inputs::{Input, Part};
use timing::times;
use trials::{folders, Bench, Folder, Times};

/// Measured runs of each program over each list.
const DEFAULT_RUNS: usize = 9;

fn main() -> ExitCode {
    let arguments: Vec<OsString> = env::args_os().skip(1).collect();
    match settings(&arguments).and_then(|(programs, runs)| speed(programs, runs)) {
        Ok(()) => ExitCode::SUCCESS,
        Err(said) => {
            eprintln!("speed: {said}");
            ExitCode::FAILURE
        }
    }
}

fn settings(arguments: &[OsString]) -> Result<([PathBuf; 2], usize)> {
    let runs = match arguments.get(2) {
        None => Some(DEFAULT_RUNS),
        Some(argument) => argument.to_str().and_then(|text| text.parse().ok()),
    };
    match (arguments, runs) {
        ([proved, second, rest @ ..], Some(runs)) if runs > 0 && rest.len() < 2 => {
            Ok((folders(proved, second)?, runs))
        }
        _ => Err(Error::other(
            "give the folders of the programs, then a number of runs if you like: \
             speed PROVED SECOND [RUNS]",
        )),
    }
}

fn speed(programs: [PathBuf; 2], runs: usize) -> Result<()> {
    let folder = Folder::fresh("speed")?;
    let bench = Bench::new(&programs, folder.path())?;
    println!("Whole programs, in milliseconds: the best and the median of {runs} runs of each,");
    println!("taken in turn, with standard output thrown away. Ratios are proved to second.");
    for part in inputs::parts() {
        print_part(&part, &bench, runs)?;
    }
    Ok(())
}

fn print_part(part: &Part, bench: &Bench, runs: usize) -> Result<()> {
    println!("\n{}\n", part.title);
    let [what, many] = part.columns;
    println!(
        "| {what} | Rows | {many} | proved best | proved median \
         | second best | second median | ratio of bests | ratio of medians |"
    );
    println!("|---|--:|--:|--:|--:|--:|--:|--:|--:|");
    for input in &part.inputs {
        let times = times(bench, &input.files(), runs)?;
        println!("{}", line(input, &times));
    }
    Ok(())
}

fn line(input: &Input, [proved, second]: &[Times; 2]) -> String {
    format!(
        "| {} | {} | {} | {:.1} | {:.1} | {:.1} | {:.1} | {:.2} | {:.2} |",
        input.name,
        input.rows(),
        with_commas(input.events),
        proved.best(),
        proved.median(),
        second.best(),
        second.median(),
        proved.best() / second.best(),
        proved.median() / second.median(),
    )
}

fn with_commas(number: usize) -> String {
    match number {
        0..=999 => number.to_string(),
        _ => format!("{},{:03}", with_commas(number / 1000), number % 1000),
    }
}

#[cfg(test)]
mod tests {
    use super::*;

    #[test]
    fn numbers_have_commas() {
        assert_eq!(with_commas(0), "0");
        assert_eq!(with_commas(4096), "4,096");
        assert_eq!(with_commas(65_536), "65,536");
        assert_eq!(with_commas(1_000_001), "1,000,001");
    }
}
