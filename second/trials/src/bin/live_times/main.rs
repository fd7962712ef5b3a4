//! The program `live_times RUNS` prints, as Markdown, how long one event of a live box takes, by
//! rows in use and packets held, and what of it is reading, testing, stepping and writing. It is
//! linked to the proved calls, which `tools/live-times` builds.
#![deny(unsafe_code)]

mod linked;

use std::env;
use std::hint::black_box;
use std::process::ExitCode;
use std::time::Instant;

use second::live::{event, fresh, STATE_WORDS};
use second::TableSlices;
use trials::Times;

/// Calls that are timed together.
const CALLS: u32 = 2000;
const ROWS: [usize; 3] = [8, 20, 256];
const HELD: [usize; 3] = [0, 100, 1024];
/// No class of these tables.
const NOBODY: u32 = 9;
/// The word with the parent of row 0, which is 0 in a sound state.
const ROOT_PARENT: usize = 512;

fn main() -> ExitCode {
    let runs = env::args().nth(1).and_then(|runs| runs.parse().ok());
    let Some(runs @ 1..) = runs else {
        eprintln!("live_times: give a number of runs");
        return ExitCode::FAILURE;
    };
    println!("| Rows | Held | One event | Reading | Testing | Stepping | Writing |");
    println!("|--:|--:|--:|--:|--:|--:|--:|");
    for rows in ROWS {
        for held in HELD {
            println!("| {rows} | {held} | {}", parts(rows, held, runs));
        }
    }
    ExitCode::SUCCESS
}

/// A flat tree with so many rows; the classes are 11, 12 and so on.
fn table(rows: usize) -> [Vec<u32>; 3] {
    let classes = rows as u32 - 1;
    let line = |root, class: &dyn Fn(u32) -> u32| {
        let mut words = vec![root];
        words.extend((0..classes).map(class));
        words
    };
    [
        line(1, &|class| 11 + class),
        line(0, &|_| 1),
        line(0, &|_| 840 / classes),
    ]
}

/// A state that holds so many packets, of all classes in turn.
fn state(rows: usize, held: usize) -> Vec<u64> {
    let [identifiers, parents, shares] = table(rows);
    let table = TableSlices {
        identifiers: &identifiers,
        parents: &parents,
        shares: &shares,
    };
    let mut state = vec![0; STATE_WORDS];
    assert_eq!(fresh(table, &mut state).answer.number, 0);
    for packet in 0..held {
        let class = identifiers[1 + packet % (rows - 1)];
        assert_eq!(event(&mut state, class, 1000).answer.number, 0);
    }
    state
}

/// The best of several runs, in nanoseconds a call.
fn best(runs: usize, mut call: impl FnMut(u32)) -> f64 {
    let mut times = Times::default();
    for _ in 0..runs {
        let began = Instant::now();
        (0..CALLS).for_each(&mut call);
        times.add(began.elapsed().as_nanos() as f64 / f64::from(CALLS));
    }
    times.best()
}

/// The line of the table behind rows and packets held. An event that is taken is one of a finish and
/// an arrival in turn, so that as many are held as before; one that is refused for its class ends
/// after the test; and a state whose first row has a parent is refused before it.
fn parts(rows: usize, held: usize, runs: usize) -> String {
    let mut live = state(rows, held);
    let least = 11;
    let taken = best(runs, |call| {
        let arrives = (call % 2 == 0) == (held == 0);
        let (class, length) = if arrives { (least, 1000) } else { (0, 0) };
        assert_eq!(linked::event(black_box(&mut live), class, length), 0);
    });
    let mut live = state(rows, held);
    let tested = best(runs, |_| {
        assert_eq!(linked::event(black_box(&mut live), NOBODY, 1), 11)
    });
    live[ROOT_PARENT] = 1;
    let read = best(runs, |_| {
        assert_eq!(linked::event(black_box(&mut live), NOBODY, 1), 20)
    });
    let written = best(runs, |_| linked::write(black_box(&mut live), rows));
    let shown = [
        taken,
        read,
        tested - read,
        taken - tested - written,
        written,
    ];
    shown
        .map(|time| format!("{:.2} |", time / 1000.0))
        .join(" ")
}

#[cfg(test)]
mod tests {
    use super::*;

    #[test]
    fn states_hold_what_is_asked_for_and_are_sound() {
        for rows in ROWS {
            for held in HELD {
                let mut live = state(rows, held);
                assert_eq!(live[3072], held as u64);
                assert_eq!(linked::event(&mut live, NOBODY, 1), 11);
            }
        }
    }
}
