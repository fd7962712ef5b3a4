//! Tables, event lists and captures for comparing and timing programs and engines, the same for
//! the same seed; running programs over them, calling engines, and showing where they differ.
#![forbid(unsafe_code)]

mod answers;
mod asked;
mod bench;
mod buffers;
pub mod captures;
mod case;
mod damage;
mod ending;
pub mod engines;
mod events;
mod faults;
mod files;
mod folder;
mod form;
mod printed;
mod random;
mod rounding;
mod show;
mod shrink;
mod steady;
mod tables;
mod texts;
mod times;
mod tree;

pub use answers::{answer_name, ANSWERS};
pub use asked::{Asked, Program, PROGRAMS, STANDARD, TWICE};
pub use bench::{folders, Bench, Both};
pub use buffers::{call, Buffers, Engine, ANSWER_BYTES, SLICES, WORD_BYTES};
pub use case::{Case, Event, Row, FINISH};
pub use damage::{damage, damage_twice, NUMBERS};
pub use ending::counted;
pub use events::{random_events, sending, EDGES};
pub use faults::{put_in, put_in_list, Fault, FAULTS, NOT_DIGITS, TOO_LARGE};
pub use files::{lines, CaptureFile, Files};
pub use folder::Folder;
pub use form::{ANSWER, PACKETS};
pub use printed::{End, Fed, Printed};
pub use random::Random;
pub use rounding::{rounding_case, rounding_cases, WRONG_CHARGES};
pub use show::difference;
pub use steady::{sparse_case, steady_case};
pub use tables::{
    any_share, even_table, fresh_identifier, random_table, same_on_air, unknown_identifier, Shape,
    SHAPES,
};
pub use texts::{put_in_table, TEXT_FAULTS};
pub use times::Times;
