//! What is timed and shown as tables: several ways to do the same thing, asked the same.

use std::io::{Error, Result};
use std::process::Command;

use crate::counting::instructions;
use crate::timing::{best_times, Work};

/// One thing that every way is asked.
pub struct Asked<'a> {
    pub name: &'static str,
    /// One for each way.
    pub works: Vec<Work<'a>>,
}

/// One column for each way, the first of which is what stood before and the last what stands.
pub struct Table<'a> {
    pub ways: Vec<&'static str>,
    pub asked: Vec<Asked<'a>>,
}

/// A line of seconds for everything that is asked, one for each way.
pub fn print_times(table: &Table, runs: usize) {
    for asked in &table.asked {
        let times = best_times(&asked.works, runs);
        let figures: Vec<String> = times.iter().map(f64::to_string).collect();
        println!("{}", figures.join(" "));
    }
}

/// The best times that the programs have, which are this one again, and the instructions.
pub fn print_tables(table: &Table, runs: &str, programs: &[&str]) -> Result<()> {
    let mut best: Vec<Vec<f64>> = Vec::new();
    for program in programs {
        best = least(best, times_of(program, runs)?);
    }
    println!(
        "The check of a flat table with a list, in microseconds: the best of {runs} runs of each \
         of {} programs.\n",
        programs.len()
    );
    print_heading(&table.ways);
    for (asked, times) in table.asked.iter().zip(&best) {
        print_line(asked.name, times, 1e6);
    }
    println!("\nThe instructions of the same, by valgrind.\n");
    print_heading(&table.ways);
    for (place, asked) in table.asked.iter().enumerate() {
        let counts: Result<Vec<f64>> = (0..table.ways.len())
            .map(|way| instructions(programs[0], [place, way]))
            .collect();
        print_line(asked.name, &counts?, 1.0);
    }
    Ok(())
}

/// The lines that a program prints for its times.
fn times_of(program: &str, runs: &str) -> Result<Vec<Vec<f64>>> {
    let run = Command::new(program).args(["time", runs]).output()?;
    let said = String::from_utf8_lossy(&run.stdout);
    let figures = |line: &str| line.split(' ').map(str::parse).collect();
    let lines: std::result::Result<_, _> = said.lines().map(figures).collect();
    lines.map_err(|_| Error::other(format!("{program} printed something else than times")))
}

/// Figure by figure the lesser one.
fn least(a: Vec<Vec<f64>>, b: Vec<Vec<f64>>) -> Vec<Vec<f64>> {
    if a.is_empty() {
        return b;
    }
    let lesser = |(a, b): (&f64, &f64)| a.min(*b);
    let lines = a.iter().zip(&b);
    lines
        .map(|(a, b)| a.iter().zip(b).map(lesser).collect())
        .collect()
}

fn print_heading(ways: &[&str]) {
    let [before, now] = [ways[0], ways[ways.len() - 1]];
    println!("| Input | {} | {before} over {now} |", ways.join(" | "));
    println!("|---|{}--:|", "--:|".repeat(ways.len()));
}

/// The figures times this, and how often the last of them goes into the first.
fn print_line(name: &str, figures: &[f64], unit: f64) {
    let shown = figures.iter().map(|figure| figure * unit);
    let digits = |figure: f64| if figure < 1e4 { 2 } else { 0 };
    let shown: Vec<String> = shown.map(|f| format!("{f:.*}", digits(f))).collect();
    let ratio = figures[0] / figures[figures.len() - 1];
    println!("| {name} | {} | {ratio:.2} |", shown.join(" | "));
}

#[cfg(test)]
mod tests {
    use super::*;

    #[test]
    fn the_lesser_figures_are_kept() {
        let [a, b] = [vec![vec![1.0, 4.0]], vec![vec![2.0, 3.0]]];
        assert_eq!(least(Vec::new(), a.clone()), a);
        assert_eq!(least(a, b), [[1.0, 3.0]]);
    }
}
