//! The program `ways RUNS PROGRAM...` prints, as Markdown, how quick two ways to find the row of an
//! event's class are. The programs are this one again, linked so that the code lies elsewhere: each
//! is called as `PROGRAM time RUNS` for its times, and the first as `PROGRAM work ASKED WAY ROUNDS`,
//! by places, to have its instructions counted.
#![deny(unsafe_code)]

mod asked;
mod counting;
mod linked;
mod shown;
mod timing;

use std::env;
use std::hint::black_box;
use std::io::{Error, Result};
use std::process::ExitCode;

use linked::{ways, Input, Way};
use shown::{print_tables, print_times, Asked, Table};
use timing::Work;
use trials::Case;

fn main() -> ExitCode {
    let arguments: Vec<String> = env::args().skip(1).collect();
    let arguments: Vec<&str> = arguments.iter().map(String::as_str).collect();
    match done(&arguments) {
        Ok(()) => ExitCode::SUCCESS,
        Err(said) => {
            eprintln!("ways: {said}");
            ExitCode::FAILURE
        }
    }
}

fn done(arguments: &[&str]) -> Result<()> {
    let ways = ways();
    let inputs = asked::lists().map(|(name, case)| (name, Input::of(&case)));
    let table = checks(&ways, &inputs);
    match *arguments {
        ["time", runs] => print_times(&table, some(runs)?),
        ["work", asked, way, rounds] => {
            let [asked, way] = [asked, way].map(number);
            let work = &table.asked[asked?].works[way?];
            for _ in 0..some(rounds)? {
                black_box(work());
            }
        }
        [runs, ref programs @ ..] if !programs.is_empty() => {
            some(runs)?;
            if let Some(wrong) = wrong(&ways) {
                return Err(Error::other(wrong));
            }
            print_tables(&table, runs, programs)?;
        }
        _ => return Err(Error::other("give a number of runs and the programs")),
    }
    Ok(())
}

fn number(text: &str) -> Result<usize> {
    let number = text.parse();
    number.map_err(|_| Error::other(format!("{text} is no number")))
}

fn some(text: &str) -> Result<usize> {
    match number(text)? {
        0 => Err(Error::other("0 runs are too few")),
        number => Ok(number),
    }
}

/// The check of each input by each way.
fn checks<'a>(ways: &'a [Way], inputs: &'a [(&'static str, Input)]) -> Table<'a> {
    let asked = |(name, input): &'a (&'static str, Input)| {
        let by = |way: &'a Way| -> Work { Box::new(|| way.row(black_box(input), 0).into()) };
        Asked {
            name,
            works: ways.iter().map(by).collect(),
        }
    };
    Table {
        ways: ways.iter().map(|way| way.name).collect(),
        asked: inputs.iter().map(asked).collect(),
    }
}

/// The first list of which a way finds another row than plain Rust does, for some of its events.
fn wrong(ways: &[Way]) -> Option<String> {
    let differs = |way: &Way, case: &Case| {
        let input = Input::of(case);
        let some = (0..case.events.len()).step_by(1 + case.events.len() / 20);
        some.into_iter()
            .any(|event| way.row(&input, event as u32) != asked::row(case, event))
    };
    asked::lists().into_iter().find_map(|(name, case)| {
        let way = ways.iter().find(|way| differs(way, &case))?;
        Some(format!("{}: a wrong row over the list {name}", way.name))
    })
}
