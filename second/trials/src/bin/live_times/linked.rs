//! The proved calls, as a library that is linked.
#![allow(unsafe_code)]

#[link(name = "timed", kind = "static")]
extern "C" {
    fn timed_event(state: *mut u64, words: usize, class: u32, length: u32) -> u32;
    fn timed_write(state: *mut u64, words: usize, rows: usize);
}

/// Hands an event to a state, and gives the answer's number.
pub fn event(state: &mut [u64], class: u32, length: u32) -> u32 {
    // The slice goes as its address and its number of words, as the compiled function takes it.
    unsafe { timed_event(state.as_mut_ptr(), state.len(), class, length) }
}

/// Writes what an event writes of so many rows.
pub fn write(state: &mut [u64], rows: usize) {
    unsafe { timed_write(state.as_mut_ptr(), state.len(), rows) }
}
