//! The ways as proved libraries that are linked.
#![allow(unsafe_code)]

use std::arch::global_asm;
use std::hint::black_box;

use trials::Case;

// So many bytes before the code of the libraries, so that it comes to lie elsewhere.
global_asm!(
    ".section .text.ways_room,\"ax\"",
    ".globl ways_room",
    concat!("ways_room: .skip ", env!("WAYS_ROOM")),
    ".text"
);

extern "C" {
    fn ways_room();
}

/// A slice as the libraries take it: C passes its two words one after the other.
#[repr(C)]
struct Slice {
    words: *const u32,
    count: usize,
}

impl Slice {
    fn of(words: &[u32]) -> Slice {
        Slice {
            words: words.as_ptr(),
            count: words.len(),
        }
    }
}

/// The check of a whole input by one library. It asks nothing of its arguments but that a slice
/// is one.
pub struct Way {
    pub name: &'static str,
    row: unsafe extern "C" fn(Slice, Slice, Slice, Slice, Slice, u32) -> u32,
}

macro_rules! way {
    ($name:literal, $library:literal, $row:ident) => {{
        #[link(name = $library, kind = "static")]
        extern "C" {
            fn $row(
                identifiers: Slice,
                parents: Slice,
                shares: Slice,
                classes: Slice,
                lengths: Slice,
                event: u32,
            ) -> u32;
        }
        Way {
            name: $name,
            row: $row,
        }
    }};
}

/// The search first, the look-up as it stands last.
pub fn ways() -> [Way; 2] {
    black_box(ways_room as *const ());
    [
        way!("search", "way_search", way_search_row),
        way!("as it stands", "way_filed", way_filed_row),
    ]
}

impl Way {
    /// The row that the check finds for an event; the largest number where it refuses.
    pub fn row(&self, input: &Input, event: u32) -> u32 {
        let [identifiers, parents, shares, classes, lengths] =
            input.0.each_ref().map(|column| Slice::of(column));
        unsafe { (self.row)(identifiers, parents, shares, classes, lengths, event) }
    }
}

/// A table and a list as five slices: identifiers, parents, shares, classes, lengths.
pub struct Input([Vec<u32>; 5]);

impl Input {
    pub fn of(case: &Case) -> Input {
        Input([
            case.rows.iter().map(|r| r.identifier).collect(),
            case.rows.iter().map(|r| r.parent).collect(),
            case.rows.iter().map(|r| r.share).collect(),
            case.events.iter().map(|e| e.class).collect(),
            case.events.iter().map(|e| e.length).collect(),
        ])
    }
}
