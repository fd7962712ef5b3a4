//! Times the engines over one list, in turn and on the same buffers.

use std::hint::black_box;
use std::io::{Error, Result};
use std::time::Instant;

use trials::{engines, Buffers, Case, Engine};

/// The first is what the others are measured against.
pub const ENGINES: [(&str, Engine); 3] = [
    ("replayer", engines::replayer),
    ("looking", engines::looking),
    ("heaps", engines::heaps),
];

/// The first slice that is written.
const FIRST_RESULT: usize = 5;

/// The times of each engine over the list, in seconds, after a run of each that is not measured.
pub fn times(case: &Case, runs: usize) -> Result<[Vec<f64>; 3]> {
    let mut buffers = Buffers::of(case);
    let expected = results(ENGINES[0].1, &mut buffers);
    for (name, engine) in ENGINES {
        if results(engine, &mut buffers) != expected {
            return Err(Error::other(format!("{name} does a list differently")));
        }
    }
    let mut times = ENGINES.map(|_| Vec::new());
    for _ in 0..runs {
        for ((_, engine), times) in ENGINES.into_iter().zip(&mut times) {
            refill(&mut buffers);
            let begun = Instant::now();
            black_box(black_box(&mut buffers).call(engine));
            times.push(begun.elapsed().as_secs_f64());
        }
    }
    Ok(times)
}

/// What a run leaves in the results, which are refilled before.
fn results(engine: Engine, buffers: &mut Buffers) -> Vec<Vec<u8>> {
    refill(buffers);
    buffers.call(engine);
    buffers.0[FIRST_RESULT..].to_vec()
}

/// Every run finds the same bytes, whichever engine was there before it.
fn refill(buffers: &mut Buffers) {
    for result in &mut buffers.0[FIRST_RESULT..] {
        result.fill(0xa5);
    }
}
