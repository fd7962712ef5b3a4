//! What the calls of a live box refuse before all else: short slices, tables, states that are not
//! sound.

use second::live::{event, fresh, report};
use second::Answer;

use crate::common::live::{fresh_state, marked, refused, HELD, ROW_COUNT, WORDS};
use crate::common::{chain, wide, Columns, Row, HALVES, ROOT};

/// What a fresh state of these rows is refused with, over so many words: number, place and second
/// place.
fn refused_fresh(rows: &[Row], words: usize) -> (u32, u32, u32) {
    refused_columns(&Columns::new(rows, &[]), words)
}

fn refused_columns(columns: &Columns, words: usize) -> (u32, u32, u32) {
    let mut state = marked(words);
    let made = fresh(columns.table(), &mut state);
    let Answer {
        number,
        place,
        second,
        count,
    } = made.answer;
    assert_eq!((count, made.packet, state), (0, 0, marked(words)));
    (number, place, second)
}

#[test]
fn a_table_is_refused_as_by_the_run() {
    let class = |identifier, parent, share| vec![ROOT, (10, 1, 420), (identifier, parent, share)];
    let tables = [
        (vec![], (1, 0, 0)),
        (vec![ROOT], (1, 0, 0)),
        (wide(257), (1, 0, 0)),
        (vec![(0, 0, 0), (10, 0, 1)], (4, 0, 0)),
        (class(0, 1, 1), (4, 2, 0)),
        (class(65_536, 1, 1), (15, 2, 0)),
        (class(10, 1, 1), (5, 2, 1)),
        (vec![(1, 1, 0), (10, 1, 1)], (6, 0, 0)),
        (class(20, 20, 1), (7, 2, 0)),
        (class(20, 1, 0), (8, 2, 0)),
        (class(20, 1, 421), (10, 0, 0)),
        (chain(9), (9, 9, 0)),
    ];
    for (rows, refusal) in tables {
        assert_eq!(refused_fresh(&rows, WORDS), refusal, "{rows:?}");
    }
}

#[test]
fn a_short_state_comes_after_the_number_of_rows_and_before_the_rows() {
    for words in [0, 1, WORDS - 1] {
        assert_eq!(refused_fresh(&HALVES, words), (3, 0, 0));
        assert_eq!(refused_fresh(&[ROOT], words), (1, 0, 0));
        assert_eq!(refused_fresh(&[(0, 0, 0), (10, 0, 1)], words), (3, 0, 0));
    }
    let mut unequal = Columns::new(&HALVES, &[]);
    unequal.shares.pop();
    assert_eq!(refused_columns(&unequal, 0), (1, 0, 0));
}

#[test]
fn events_refuse_a_short_state_then_an_unsound_one() {
    let mut damaged = fresh_state(&HALVES);
    damaged[HELD] = 1;
    for (mut words, number) in [
        (Vec::new(), 3),
        (damaged[..WORDS - 1].to_vec(), 3),
        (fresh_state(&HALVES)[..WORDS - 1].to_vec(), 3),
        (damaged, 20),
    ] {
        for (class, length) in [(10, 1), (0, 0), (0, 1), (30, 1), (1, 1), (10, 0)] {
            let before = words.clone();
            assert_eq!(event(&mut words, class, length), refused(number));
            assert_eq!(words, before);
        }
    }
}

#[test]
fn a_report_refuses_a_short_slice_then_an_unsound_state() {
    let sound = fresh_state(&HALVES);
    let mut damaged = sound.clone();
    damaged[ROW_COUNT] = 0;
    let said = |words: &[u64], numbers: usize, lags: usize| {
        let (mut numbers, mut lags) = (marked(numbers), vec![-7; lags]);
        let said = report(words, &mut numbers, &mut lags);
        if said.answer.number != 0 {
            assert_eq!(numbers, marked(numbers.len()));
            assert!(lags.iter().all(|lag| *lag == -7));
        }
        said
    };
    assert_eq!(said(&sound, 1_280, 256), refused(0));
    for words in [&sound, &damaged] {
        assert_eq!(said(&words[..WORDS - 1], 1_280, 256), refused(3));
        assert_eq!(said(words, 1_279, 256), refused(3));
        assert_eq!(said(words, 1_280, 255), refused(3));
        assert_eq!(said(words, 0, 0), refused(3));
    }
    assert_eq!(said(&damaged, 1_280, 256), refused(20));
}
