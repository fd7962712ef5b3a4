//! So many bytes before the code of the engines, so that it comes to lie elsewhere.
#![allow(unsafe_code)]

use std::arch::global_asm;
use std::hint::black_box;

global_asm!(
    ".section .text.engines_room,\"ax\"",
    ".globl engines_room",
    concat!("engines_room: .skip ", env!("ENGINES_ROOM")),
    ".text"
);

extern "C" {
    fn engines_room();
}

/// Keeps the room in the program.
pub fn keep() {
    black_box(engines_room as *const ());
}
