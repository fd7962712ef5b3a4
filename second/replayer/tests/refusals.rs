//! Each refusal, where it is found, and which of two comes first.

use crate::call::{words, Call, Event, Row, FINISH, HALVES, ROOT};

fn of_rows(rows: &[Row]) -> [u32; 3] {
    Call::new(rows, &[(10, 100)]).refused()
}

fn of_events(events: &[Event]) -> [u32; 3] {
    let rows = [ROOT, (10, 1, 420), (20, 1, 420), (30, 20, 840)];
    Call::new(&rows, events).refused()
}

/// So many rows right under the root, with share 3.
fn wide(rows: u32) -> Vec<Row> {
    let classes = (1..rows).map(|row| (row + 1000, 1, 3));
    [ROOT].into_iter().chain(classes).collect()
}

/// A class under another, down to this depth.
fn chain(depth: u32) -> Vec<Row> {
    let classes = (1..=depth).map(|at| (at + 1, at, 840));
    [ROOT].into_iter().chain(classes).collect()
}

fn done(rows: &[Row], events: &[Event]) -> u32 {
    let mut call = Call::new(rows, events);
    assert_eq!(call.run(), 0);
    let [0, 0, 0, count] = call.answer()[..] else {
        panic!("a done run has no places");
    };
    count
}

#[test]
fn refusal_1_rows() {
    assert_eq!(of_rows(&[]), [1, 0, 0]);
    assert_eq!(of_rows(&[ROOT]), [1, 0, 0]);
    assert_eq!(of_rows(&wide(257)), [1, 0, 0]);
    assert_eq!(done(&wide(256), &[(1001, 9000)]), 1);
    for slice in 0..3 {
        let mut call = Call::new(&HALVES, &[FINISH]);
        call.0[slice].truncate(8);
        call.0[4].clear();
        assert_eq!(call.refused(), [1, 0, 0]);
    }
}

#[test]
fn refusal_2_events() {
    let events = vec![(10, 1); 65_537];
    assert_eq!(Call::new(&HALVES, &events).refused(), [2, 0, 0]);
    assert_eq!(done(&HALVES, &events[1..]), 1);
    for slice in 3..5 {
        let mut call = Call::new(&[ROOT, ROOT], &[FINISH, FINISH]);
        call.0[slice].truncate(4);
        call.0[5].clear();
        assert_eq!(call.refused(), [2, 0, 0]);
    }
}

#[test]
fn refusal_3_room() {
    for (slice, bytes) in [(5, 8), (6, 120), (7, 24), (8, 8)] {
        let word = if slice == 6 || slice == 7 { 8 } else { 4 };
        for (rows, number) in [(HALVES, 0), ([(0, 0, 0); 3], 4)] {
            let mut call = Call::new(&rows, &[(10, 1), FINISH]);
            call.0[slice].truncate(bytes);
            assert_eq!(call.run(), number);
            call.0[slice].truncate(bytes - word);
            assert_eq!(call.refused(), [3, 0, 0]);
        }
    }
}

#[test]
fn refusals_of_the_root() {
    assert_eq!(of_rows(&[(0, 1, 1), (0, 0, 0)]), [4, 0, 0]);
    assert_eq!(of_rows(&[(65_536, 1, 1), (0, 0, 0)]), [15, 0, 0]);
    for root in [(1, 1, 0), (1, 0, 1), (1, 5, 420)] {
        assert_eq!(of_rows(&[root, (0, 0, 0)]), [6, 0, 0]);
    }
}

#[test]
fn refusals_of_a_class() {
    let of_class = |class: Row| of_rows(&[ROOT, (10, 1, 840), class, (0, 0, 0)]);
    assert_eq!(of_class((0, 0, 0)), [4, 2, 0]);
    assert_eq!(of_class((65_536, 99, 0)), [15, 2, 0]);
    assert_eq!(of_class((u32::MAX, 99, 0)), [15, 2, 0]);
    assert_eq!(of_class((10, 99, 0)), [5, 2, 1]);
    assert_eq!(of_class((1, 99, 0)), [5, 2, 0]);
    for parent in [0, 20, 99, 65_536 + 10, u32::MAX] {
        assert_eq!(of_class((20, parent, 0)), [7, 2, 0]);
    }
    for share in [0, 841, u32::MAX] {
        assert_eq!(of_class((20, 1, share)), [8, 2, 0]);
    }
    assert_eq!(of_rows(&chain(9)), [9, 9, 0]);
    assert_eq!(done(&chain(8), &[(9, 1)]), 1);
}

#[test]
fn refusal_10_shares() {
    assert_eq!(of_rows(&[ROOT, (10, 1, 840), (20, 1, 1)]), [10, 0, 0]);
    let both = [
        ROOT,
        (10, 1, 840),
        (20, 10, 840),
        (30, 20, 421),
        (40, 20, 420),
        (50, 10, 1),
    ];
    assert_eq!(of_rows(&both), [10, 1, 0]);
    assert_eq!(of_rows(&both[..5]), [10, 2, 0]);
}

#[test]
fn refusals_of_an_arrival() {
    for class in [99, 65_536 + 10, u32::MAX] {
        assert_eq!(of_events(&[(10, 1), (class, 0), FINISH]), [11, 1, 0]);
    }
    for class in [1, 20] {
        assert_eq!(of_events(&[(10, 1), FINISH, (class, 0)]), [12, 2, 0]);
    }
    for length in [0, 9001, 65_537, u32::MAX] {
        assert_eq!(of_events(&[(30, length), FINISH]), [13, 0, 0]);
    }
}

#[test]
fn refusals_of_a_finish() {
    assert_eq!(of_events(&[(0, 1)]), [13, 0, 0]);
    assert_eq!(of_events(&[FINISH]), [14, 0, 0]);
    assert_eq!(of_events(&[(10, 1), FINISH, FINISH, (99, 1)]), [14, 2, 0]);
}

#[test]
fn what_a_done_run_leaves_of_longer_slices() {
    let mut call = Call::new(&HALVES, &[(10, 100), (20, 100), FINISH]);
    let before = call.clone();
    assert_eq!(call.run(), 0);
    assert_eq!(call.answer(), [0, 0, 0, 2]);
    assert_eq!(call.0[..5], before.0[..5]);
    for (slice, written) in [(5, 8), (6, 120), (7, 24), (8, 12)] {
        assert_eq!(call.0[slice][written..], before.0[slice][written..]);
    }
    assert_eq!(words(&call.0[5])[..2], [0, 1]);
    assert_eq!(words(&call.0[8])[..3], [0, 0, 0]);
}
