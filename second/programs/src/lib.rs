//! A replayer for a hierarchical packet scheduler in whole numbers, over lists and captures, the
//! sheet of its promise, and its class table drawn as a tree.
#![forbid(unsafe_code)]

mod answer;
pub mod capture;
mod counts;
mod csv;
mod events;
mod files;
mod inside;
pub mod live;
mod print;
pub mod program;
pub mod promise;
mod report;
mod response;
mod run;
mod scheduler;
mod sentences;
mod shares;
pub mod sheet;
mod slices;
mod table;
pub mod table_program;
mod text;
mod tree;

pub use answer::Answer;
pub use csv::{read_table, write_report, write_table};
pub use events::MOST_BYTES;
pub use inside::{Choices, Inside};
pub use report::REPORT_WIDTH;
pub use run::{inside, run, MOST_EVENTS, MOST_ROWS};
pub use sentences::sentence;
pub use shares::{charge, is_exact, UNIT_COST, WHOLE};
pub use slices::{EventRoom, EventSlices, Lent, Room, TableRoom, TableSlices};
pub use table::{MOST_DEPTH, MOST_IDENTIFIER};
