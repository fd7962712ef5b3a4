//! Times several pieces of work, in turn.

use std::hint::black_box;
use std::time::{Duration, Instant};

use trials::Times;

/// How long one measurement takes at least.
const LEAST: Duration = Duration::from_millis(10);

/// Work to be timed; its result is used.
pub type Work<'a> = Box<dyn Fn() -> u64 + 'a>;

/// The best time of each work, in seconds.
pub fn best_times(works: &[Work], runs: usize) -> Vec<f64> {
    let rounds: Vec<u32> = works.iter().map(enough).collect();
    let mut times: Vec<Times> = works.iter().map(|_| Times::default()).collect();
    for _ in 0..runs {
        for ((work, rounds), times) in works.iter().zip(&rounds).zip(&mut times) {
            times.add(elapsed(work, *rounds).as_secs_f64() / f64::from(*rounds));
        }
    }
    times.iter().map(Times::best).collect()
}

/// So many rounds take long enough.
fn enough(work: &Work) -> u32 {
    let mut rounds = 1;
    while elapsed(work, rounds) < LEAST {
        rounds *= 2;
    }
    rounds
}

fn elapsed(work: &Work, rounds: u32) -> Duration {
    let begun = Instant::now();
    let sum: u64 = (0..rounds).map(|_| work()).sum();
    black_box(sum);
    begun.elapsed()
}
