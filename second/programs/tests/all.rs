//! All tests of the package, as modules of one program.
#![forbid(unsafe_code)]

mod capture_lists;
mod capture_program;
mod capture_sentences;
mod captures;
mod common;
mod limits;
mod live_days;
mod live_files;
mod live_program;
mod live_refusals;
mod live_sound;
mod live_stream;
mod program;
mod promise;
mod refusals;
mod rounding;
mod sentences;
mod shares;
mod standard_input;
mod streams;
mod table_faults;
mod table_refusals;
mod table_sentences;
mod table_tree;
mod ticks;
mod unreadable;
mod worked_runs;
mod written;
mod wrong_turns;
