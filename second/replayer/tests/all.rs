//! All tests of the replayer.
#![forbid(unsafe_code)]

mod call;
mod part_words;
mod refusals;
mod worked_runs;
