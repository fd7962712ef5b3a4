//! The program `calls [SEED [LISTS [bare]]]`: both proved engines, by their C functions, and the two
//! plain replayers over the same bytes.
#![forbid(unsafe_code)]

mod blocks;
mod held;
mod plan;
mod tally;

use std::ffi::OsString;
use std::io::{Error, Result};
use std::process::ExitCode;
use std::sync::atomic::{AtomicUsize, Ordering};
use std::thread;

use blocks::After;
use held::{held, Named};
use plan::trial;
use tally::Tally;
use trials::{counted, engines};

const DEFAULT_SEED: u64 = 840;
const DEFAULT_LISTS: usize = 18_400;

/// Bytes of a thread's stack, where the proved engines keep all their words: callers are told that
/// so many are enough.
const STACK: usize = 1_500_000;

/// The first is what the others are held to.
const ENGINES: [Named; 4] = [
    Named {
        name: "second",
        run: |blocks| blocks.call(engines::second),
    },
    Named {
        name: "replayer",
        run: |blocks| blocks.call(engines::replayer),
    },
    Named {
        name: "marginlilac_run",
        run: |blocks| blocks.call(engines::looking),
    },
    Named {
        name: "marginlilac_run_heaps",
        run: |blocks| blocks.call(engines::heaps),
    },
];

struct Settings {
    seed: u64,
    /// Besides the one of full size.
    lists: usize,
    after: After,
}

fn main() -> ExitCode {
    counted("calls", |arguments| calls(&settings(arguments)?))
}

fn settings(arguments: &[OsString]) -> Result<Settings> {
    let number = |place: usize, default: u64| match arguments.get(place) {
        None => Some(default),
        Some(argument) => argument.to_str().and_then(|text| text.parse().ok()),
    };
    let lists = number(1, DEFAULT_LISTS as u64).and_then(|lists| usize::try_from(lists).ok());
    let after = match arguments.get(2) {
        None => Some(After::Guards),
        Some(word) => (word == "bare").then_some(After::Nothing),
    };
    match (number(0, DEFAULT_SEED), lists, after) {
        (Some(seed), Some(lists), Some(after)) if arguments.len() < 4 => {
            Ok(Settings { seed, lists, after })
        }
        _ => Err(Error::other(
            "give a seed and a number of lists if you like: calls [SEED [LISTS [bare]]]",
        )),
    }
}

/// Makes all calls and prints what came of them; true if nothing failed.
fn calls(settings: &Settings) -> Result<bool> {
    println!("seed {}, {} lists", settings.seed, settings.lists + 1);
    let mut tally = all_lists(settings)?;
    tally.differing.sort_unstable();
    print!("{}", tally.text());
    let mut failed = tally.differing.len();
    if let Some(first) = tally.differing.first() {
        show_difference(settings, *first);
    } else if settings.lists >= DEFAULT_LISTS {
        for shortage in tally.shortages() {
            println!("calls: {shortage}");
            failed += 1;
        }
    }
    println!("{} passed, {failed} failed", tally.passed());
    Ok(failed == 0)
}

/// Shares the lists out to as many threads as the machine runs at once.
fn all_lists(settings: &Settings) -> Result<Tally> {
    let threads = thread::available_parallelism()?.get();
    let next = AtomicUsize::new(0);
    thread::scope(|scope| {
        let work = |_| {
            let thread = thread::Builder::new().stack_size(STACK);
            thread.spawn_scoped(scope, || some_lists(settings, &next))
        };
        let workers: Result<Vec<_>> = (0..threads).map(work).collect();
        let mut tally = Tally::default();
        for worker in workers? {
            let done = worker.join();
            tally.join(done.map_err(|_| Error::other("a thread has failed"))?);
        }
        Ok(tally)
    })
}

/// Takes one list after another until none is left; the one of full size first.
fn some_lists(settings: &Settings, next: &AtomicUsize) -> Tally {
    let mut tally = Tally::default();
    loop {
        let taken = next.fetch_add(1, Ordering::Relaxed);
        let Some(list) = settings.lists.checked_sub(taken) else {
            return tally;
        };
        let blocks = trial(settings.seed, list, settings.lists, settings.after).blocks;
        match held(&blocks, &ENGINES) {
            Ok(number) => tally.add(number, blocks.have_part_words(), blocks.unaligned()),
            Err(_) => tally.differing.push(list),
        }
    }
}

fn show_difference(settings: &Settings, list: usize) {
    let found = trial(settings.seed, list, settings.lists, settings.after);
    let said = held(&found.blocks, &ENGINES);
    println!(
        "calls: list {list} ({}) comes out differently: {}",
        found.name,
        said.err().unwrap_or_default()
    );
    println!("calls: bytes of its slices: {}", found.blocks.lengths());
}
