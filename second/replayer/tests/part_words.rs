//! Slices that are no whole number of words, and answers of another size: 3, and nothing is written.

use crate::call::{Call, FINISH, HALVES};

fn refused_before_all_else(mut call: Call) {
    let before = call.clone();
    assert_eq!(call.run(), 3);
    assert_eq!(call, before);
}

#[test]
fn a_part_of_a_word_too_many_or_too_few() {
    // One input is done, the others have refusals 1 and 14.
    for (rows, events) in [(3, 2), (1, 2), (3, 0)] {
        let events = &[(10, 100), (20, 100), FINISH][2 - events..];
        for (slice, word) in [4, 4, 4, 4, 4, 4, 8, 8, 4].into_iter().enumerate() {
            for bytes in 1..word {
                let mut call = Call::new(&HALVES[..rows], events);
                call.0[slice].extend(vec![1; bytes]);
                refused_before_all_else(call);
                let mut call = Call::new(&HALVES[..rows], events);
                let length = call.0[slice].len();
                call.0[slice].truncate(length.saturating_sub(bytes));
                if length > 0 {
                    refused_before_all_else(call);
                }
            }
        }
    }
}

#[test]
fn an_answer_has_four_words_and_no_more() {
    for length in [0, 1, 4, 8, 12, 15, 17, 20, 32] {
        let mut call = Call::new(&HALVES, &[(10, 100)]);
        call.0[9] = vec![7; length];
        refused_before_all_else(call);
    }
}
