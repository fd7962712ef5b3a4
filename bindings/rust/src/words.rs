//! Words as the bytes that they are in memory, which on this machine are little-endian.
#![allow(unsafe_code)]

use std::mem::size_of_val;
use std::slice::{from_raw_parts, from_raw_parts_mut};

#[cfg(not(target_endian = "little"))]
compile_error!("words are lent as they are in memory, and the engines take them little-endian");

/// A number every byte of which counts, and may be any.
pub trait Word {}

impl Word for u32 {}
impl Word for u64 {}
impl Word for i64 {}

pub fn bytes_of<T: Word>(words: &[T]) -> &[u8] {
    // Sound: the same memory, borrowed as before, and bytes may stand anywhere.
    unsafe { from_raw_parts(words.as_ptr().cast(), size_of_val(words)) }
}

pub fn bytes_of_mut<T: Word>(words: &mut [T]) -> &mut [u8] {
    // Sound as above; whatever bytes are written, they are some words.
    unsafe { from_raw_parts_mut(words.as_mut_ptr().cast(), size_of_val(words)) }
}
