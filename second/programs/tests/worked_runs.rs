//! The worked runs of the rules, P1 to P12 and the unmarked ones.

use crate::common::{
    accepted, chain, refused, FINISH, HALVES, P1_EVENTS, P3_EVENTS, P4_ROWS, ROOT, THIRDS,
};

#[test]
fn p1_whole() {
    let outcome = accepted(&HALVES, &P1_EVENTS);
    assert_eq!(outcome.order, [0, 1, 2]);
    assert_eq!(
        outcome.report,
        [
            [300, 0, 0, 252000, 0],
            [200, 168000, 336000, 0, 0],
            [100, 84000, 252000, 0, 0],
        ]
    );
    assert_eq!(outcome.lags, [0, 0, 0]);
}

#[test]
fn p2_cut_after_the_fourth_event() {
    let outcome = accepted(&HALVES, &P1_EVENTS[..4]);
    assert_eq!(outcome.order, [0, 1]);
    assert_eq!(outcome.held(), [2, 1, 1]);
    assert_eq!(outcome.lags, [0, -42000, 42000]);
}

#[test]
fn p3_equal_finishes_take_the_earliest_arrival() {
    let outcome = accepted(&THIRDS, &P3_EVENTS);
    assert_eq!(outcome.order, [0, 1, 2]);
    assert_eq!(outcome.root_virtual_time(), 252000);
}

#[test]
fn p4_two_levels() {
    let events = [(4, 100), (3, 100), (5, 100), FINISH, FINISH, FINISH];
    let outcome = accepted(&P4_ROWS, &events);
    assert_eq!(outcome.order, [0, 1, 2]);
    assert_eq!(outcome.report[1], [200, 168000, 336000, 168000, 0]);
    assert_eq!(outcome.root_virtual_time(), 252000);
}

#[test]
fn p5_virtual_time_jumps_to_the_least_start() {
    let rows = [ROOT, (10, 1, 105)];
    let outcome = accepted(&rows, &[(10, 100), (10, 100), FINISH, FINISH]);
    assert_eq!(outcome.order, [0, 1]);
    assert_eq!(outcome.report[1], [200, 672000, 1344000, 0, 0]);
    assert_eq!(outcome.root_virtual_time(), 756000);
}

#[test]
fn p6_no_event() {
    let outcome = accepted(&HALVES, &[]);
    assert!(outcome.order.is_empty());
    assert_eq!(outcome.report, [[0; 5]; 3]);
    assert_eq!(outcome.lags, [0; 3]);
}

#[test]
fn p7_repeated_identifier() {
    let rows = [ROOT, (10, 1, 420), (10, 1, 420)];
    assert_eq!(refused(&rows, &P1_EVENTS), (5, 2, 1));
}

#[test]
fn p8_share_756_is_accepted() {
    accepted(&[ROOT, (10, 1, 756)], &[]);
}

#[test]
fn p9_share_840_is_accepted() {
    accepted(&[ROOT, (10, 1, 840)], &[]);
}

#[test]
fn p10_shares_over_the_whole() {
    let rows = [ROOT, (10, 1, 420), (20, 1, 420), (30, 1, 1)];
    assert_eq!(refused(&rows, &[]), (10, 0, 0));
}

#[test]
fn p11_finish_as_first_event() {
    assert_eq!(refused(&HALVES, &[FINISH]), (14, 0, 0));
}

#[test]
fn p12_length_9001() {
    assert_eq!(refused(&HALVES, &[(10, 9001)]), (13, 0, 0));
}

#[test]
fn depth_8_is_accepted() {
    let outcome = accepted(&chain(8), &[(80, 100), FINISH]);
    assert_eq!(outcome.order, [0]);
    assert_eq!(outcome.report[8], [100, 0, 84000, 0, 0]);
    assert_eq!(outcome.report[7], [100, 0, 84000, 84000, 0]);
}

#[test]
fn depth_9_is_refused() {
    assert_eq!(refused(&chain(9), &[]), (9, 9, 0));
}

/// A byte costs each class 1,680.
/// Event 0: class 10 has S 0, F 1680; packet 0 goes; root V 840.
/// Event 1: class 20 has S 840, F 840 + 2048 * 1680 = 3441480.
/// Finish 1: class 10 has S 1680, F 1680 + 2049 * 1680 = 3444000; S is over V 840, so
/// packet 1 goes; V 840 + 2048 * 840 = 1721160.
/// Finish 2: class 20 has S 3441480, F 3441480 + 9000 * 1680 = 18561480; S is over V, so
/// packet 2 goes; V 1721160 + 2049 * 840 = 3442320. Lags are looked at here: the line has
/// finished 1 + 2048 bytes, class 10 has 420 * 2049 - 840 * 1, class 20 420 * 2049 - 840 * 2048.
/// Finish 3: packet 3 goes; V 3442320 + 9000 * 840 = 11002320.
#[test]
fn lengths_1_2048_2049_and_9000_are_accepted() {
    let mut events = vec![(10, 1), (20, 2048), (10, 2049), (20, 9000), FINISH, FINISH];
    assert_eq!(accepted(&HALVES, &events).lags, [0, 859740, -859740]);
    events.extend([FINISH, FINISH]);
    let outcome = accepted(&HALVES, &events);
    assert_eq!(outcome.order, [0, 1, 2, 3]);
    assert_eq!(
        outcome.report,
        [
            [13098, 0, 0, 11002320, 0],
            [2050, 1680, 3444000, 0, 0],
            [11048, 3441480, 18561480, 0, 0],
        ]
    );
    assert_eq!(outcome.lags, [0, 0, 0]);
}

#[test]
fn a_class_that_is_its_own_parent_gives_7() {
    assert_eq!(refused(&[ROOT, (10, 10, 420)], &[]), (7, 1, 0));
}
