//! The program `compare PROVED SECOND [SEED [LISTS]]`: two folders' programs over the same files.
#![forbid(unsafe_code)]

mod alone;
mod answers;
mod bytes;
mod captured;
mod captures;
mod charged;
mod edges;
mod identifiers;
mod listed;
mod octets;
mod plan;
mod sheets;
mod tally;

use std::ffi::OsString;
use std::io::{Error, Result};
use std::path::{Path, PathBuf};
use std::process::ExitCode;
use std::sync::atomic::{AtomicUsize, Ordering};
use std::thread;

use alone::table_trial;
use bytes::{damaged_table, TEXTS};
use captures::{capture_trial, AT_LIMIT};
use octets::{damaged_capture, OCTETS};
use plan::{trial, Trial, ROUND_LISTS};
use tally::Tally;
use trials::{counted, difference, folders, Bench, Folder};

const DEFAULT_SEED: u64 = 840;
const DEFAULT_LISTS: usize = 60 * ROUND_LISTS;

/// For so many lists there is a capture.
const LISTS_A_CAPTURE: usize = 5;

/// For so many lists there is a table alone.
const LISTS_A_TABLE: usize = 3;

struct Settings {
    programs: [PathBuf; 2],
    seed: u64,
    /// Besides the one of full size.
    lists: usize,
    /// Besides the two at the limit of records.
    captures: usize,
    /// Those that are asked for alone.
    tables: usize,
    /// Those of one table, damaged byte by byte.
    texts: usize,
    /// Captures of two packets, damaged byte by byte.
    octets: usize,
}

/// One of the trials, by its number among those of its part.
enum Part {
    /// The last one has full size.
    List(usize),
    Capture(usize),
    Table(usize),
    Text(usize),
    Octets(usize),
}

impl Settings {
    /// How many trials each part has.
    fn parts(&self) -> [usize; 5] {
        let [lists, captures] = [self.lists + 1, self.captures + AT_LIMIT];
        [lists, captures, self.tables, self.texts, self.octets]
    }

    fn part(&self, mut number: usize) -> Part {
        let parts = [Part::List, Part::Capture, Part::Table, Part::Text];
        for (part, count) in parts.into_iter().zip(self.parts()) {
            if number < count {
                return part(number);
            }
            number -= count;
        }
        Part::Octets(number)
    }
}

fn main() -> ExitCode {
    counted("compare", |arguments| compare(&settings(arguments)?))
}

fn settings(arguments: &[OsString]) -> Result<Settings> {
    let number = |place: usize, default: u64| match arguments.get(place) {
        None => Some(default),
        Some(argument) => argument.to_str().and_then(|text| text.parse().ok()),
    };
    let lists = number(3, DEFAULT_LISTS as u64).and_then(|lists| usize::try_from(lists).ok());
    match (arguments, number(2, DEFAULT_SEED), lists) {
        ([proved, second, rest @ ..], Some(seed), Some(lists)) if rest.len() < 3 => Ok(Settings {
            programs: folders(proved, second)?,
            seed,
            lists,
            captures: lists / LISTS_A_CAPTURE,
            tables: lists / LISTS_A_TABLE,
            // Under other seeds they would be the same again.
            texts: if seed == DEFAULT_SEED { TEXTS } else { 0 },
            octets: if seed == DEFAULT_SEED { OCTETS } else { 0 },
        }),
        _ => Err(Error::other(
            "give the folders of the programs, then a seed and a number of lists if you like: \
             compare PROVED SECOND [SEED [LISTS]]",
        )),
    }
}

fn numbered(settings: &Settings, number: usize) -> Trial {
    match settings.part(number) {
        Part::List(list) => trial(settings.seed, list, settings.lists),
        Part::Capture(capture) => capture_trial(settings.seed, capture, settings.captures),
        Part::Table(table) => table_trial(settings.seed, table),
        Part::Text(text) => damaged_table(text),
        Part::Octets(capture) => damaged_capture(capture),
    }
}

/// Compares all lists and prints what came of them; true if nothing failed.
fn compare(settings: &Settings) -> Result<bool> {
    let folder = Folder::fresh("compare")?;
    let [lists, captures, tables, texts, octets] = settings.parts();
    println!(
        "seed {}, {lists} lists, {captures} captures, {tables} tables, {texts} texts, \
         {octets} damaged captures",
        settings.seed
    );
    let mut tally = all_lists(settings, folder.path())?;
    tally.differing.sort_unstable();
    print!("{}", tally.text());
    let mut failed = tally.differing.len();
    if let Some(first) = tally.differing.first() {
        show_difference(settings, folder.path(), *first)?;
    } else if settings.lists >= DEFAULT_LISTS {
        for shortage in tally.shortages() {
            println!("compare: {shortage}");
            failed += 1;
        }
    }
    println!("{} passed, {failed} failed", tally.passed());
    Ok(failed == 0)
}

/// Shares the lists out to as many threads as the machine runs at once.
fn all_lists(settings: &Settings, folder: &Path) -> Result<Tally> {
    let threads = thread::available_parallelism()?.get();
    let next = AtomicUsize::new(0);
    thread::scope(|scope| {
        let work = |number| {
            scope.spawn({
                let next = &next;
                move || some_lists(settings, folder, number, next)
            })
        };
        let workers: Vec<_> = (0..threads).map(work).collect();
        let mut tally = Tally::default();
        for worker in workers {
            let done = worker.join();
            tally.join(done.map_err(|_| Error::other("a thread has failed"))??);
        }
        Ok(tally)
    })
}

/// Takes one list after another until none is left, the one of full size first; then the rest.
fn some_lists(
    settings: &Settings,
    folder: &Path,
    worker: usize,
    next: &AtomicUsize,
) -> Result<Tally> {
    let bench = Bench::new(&settings.programs, &folder.join(worker.to_string()))?;
    let mut tally = Tally::default();
    loop {
        let taken = next.fetch_add(1, Ordering::Relaxed);
        if taken >= settings.parts().into_iter().sum() {
            return Ok(tally);
        }
        let number = settings.lists.checked_sub(taken).unwrap_or(taken);
        let trial = numbered(settings, number);
        let both = bench.run(&trial.files)?;
        match settings.part(number) {
            Part::List(_) => tally.add(number, both.agreed()),
            Part::Capture(_) => tally.add_capture(number, &trial.files, &both),
            Part::Table(_) => tally.add_table(number, &both),
            Part::Text(_) => tally.add_text(number, both.agreed()),
            Part::Octets(_) => tally.add_octets(number, both.agreed()),
        }
        if let Some(case) = &trial.case {
            tally.look_inside(case);
        }
    }
}

/// Cuts the list down and shows what is left of it.
fn show_difference(settings: &Settings, folder: &Path, number: usize) -> Result<()> {
    let bench = Bench::new(&settings.programs, folder)?;
    let found = numbered(settings, number);
    println!(
        "compare: trial {number} ({}) comes out differently",
        found.name
    );
    print!("{}", difference(&bench, &found.files)?);
    Ok(())
}
