//! The C functions as they are: ten byte slices and a number.
#![allow(unsafe_code)]

/// What a call lends, at any addresses. Words are little-endian: of 64 bits in the report and the
/// lags, elsewhere of 32.
#[derive(Debug)]
pub struct Bytes<'a> {
    pub identifiers: &'a [u8],
    pub parents: &'a [u8],
    pub shares: &'a [u8],
    pub classes: &'a [u8],
    pub lengths: &'a [u8],
    pub order: &'a mut [u8],
    pub report: &'a mut [u8],
    pub lags: &'a mut [u8],
    pub working: &'a mut [u8],
    /// Exactly 16 bytes: number, place, second place and count.
    pub answer: &'a mut [u8],
}

/// A safe function over such slices, and the C function that it calls.
macro_rules! engine {
    ($(#[$said:meta])* $name:ident calls $function:ident) => {
        #[link(name = "marginlilac", kind = "static")]
        extern "C" {
            fn $function(
                identifiers: *const u8, identifiers_bytes: usize,
                parents: *const u8, parents_bytes: usize,
                shares: *const u8, shares_bytes: usize,
                classes: *const u8, classes_bytes: usize,
                lengths: *const u8, lengths_bytes: usize,
                order: *mut u8, order_bytes: usize,
                report: *mut u8, report_bytes: usize,
                lags: *mut u8, lags_bytes: usize,
                working: *mut u8, working_bytes: usize,
                answer: *mut u8, answer_bytes: usize,
            ) -> u32;
        }

        $(#[$said])*
        pub fn $name(lent: Bytes) -> u32 {
            // Sound: it reads and writes within the slices that it is given, which do not overlap.
            unsafe {
                $function(
                    lent.identifiers.as_ptr(), lent.identifiers.len(),
                    lent.parents.as_ptr(), lent.parents.len(),
                    lent.shares.as_ptr(), lent.shares.len(),
                    lent.classes.as_ptr(), lent.classes.len(),
                    lent.lengths.as_ptr(), lent.lengths.len(),
                    lent.order.as_mut_ptr(), lent.order.len(),
                    lent.report.as_mut_ptr(), lent.report.len(),
                    lent.lags.as_mut_ptr(), lent.lags.len(),
                    lent.working.as_mut_ptr(), lent.working.len(),
                    lent.answer.as_mut_ptr(), lent.answer.len(),
                )
            }
        }
    };
}

engine! {
    /// The engine that looks through a row's children. Gives the answer's number. Slices that are
    /// no whole number of words, or an answer that is not of 16 bytes: 3, and nothing is written.
    run calls marginlilac_run
}

engine! {
    /// The engine that keeps a row's children in heaps: the same number, and the same bytes.
    run_heaps calls marginlilac_run_heaps
}
