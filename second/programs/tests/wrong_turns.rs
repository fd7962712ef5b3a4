//! Runs where an easy mistake in the steps would show; the numbers are worked by hand.

use crate::common::{
    accepted, chain, Columns, Event, Row, FINISH, HALVES, P3_EVENTS, P4_ROWS, ROOT, THIRDS,
};

/// Two halves of the line, each handed down whole to one sending class.
const HANDED_DOWN: [Row; 5] = [ROOT, (2, 1, 420), (3, 1, 420), (4, 2, 840), (5, 3, 840)];

const HANDED_DOWN_EVENTS: [Event; 8] = [
    (4, 10),
    (4, 10),
    (4, 10),
    (5, 2048),
    FINISH,
    FINISH,
    FINISH,
    FINISH,
];

/// Thirds of the line, two of them handed down whole to a sending class at depth 3.
const DEEP_THIRDS: [Row; 8] = [
    ROOT,
    (2, 1, 280),
    (3, 1, 280),
    (4, 1, 280),
    (5, 2, 840),
    (6, 3, 840),
    (7, 5, 840),
    (8, 6, 840),
];

const DEEP_EVENTS: [Event; 12] = [
    (4, 100),
    (8, 100),
    (7, 100),
    FINISH,
    FINISH,
    FINISH,
    (4, 100),
    (7, 100),
    (8, 100),
    FINISH,
    FINISH,
    FINISH,
];

/// Choices made, those decided by the place, and of these those not of the lowest row.
fn choices(rows: &[Row], events: &[Event]) -> [u64; 3] {
    let columns = Columns::new(rows, events);
    let inside = second::inside(columns.table(), columns.events());
    let choices = inside.expect("the run is accepted").choices;
    [choices.made, choices.by_place, choices.not_lowest]
}

/// A byte costs each class 1,680.
/// Event 0: class 10 has S 0, F 16800; root V 8400.
/// Event 1: class 20 has S 8400, F 8400 + 168000 = 176400.
/// Finish: class 10 has S 16800, F 33600, the least F, but S is over V 8400,
/// so packet 1 goes; V 92400. Finish: packet 2 goes; V 100800.
#[test]
fn the_least_finish_waits_until_its_start_is_reached() {
    let events = [(10, 10), (20, 100), (10, 10), FINISH, FINISH, FINISH];
    let outcome = accepted(&HALVES, &events);
    assert_eq!(outcome.order, [0, 1, 2]);
    assert_eq!(
        outcome.report,
        [
            [120, 0, 0, 100800, 0],
            [20, 16800, 33600, 0, 0],
            [100, 8400, 176400, 0, 0],
        ]
    );
}

/// Event 0: class 10 has S 0, F 16800; root V 8400.
/// Event 3: class 20 has S 8400, F 8400 + 2048 * 1680 = 3449040.
/// Finish 1: class 10 has S 16800, F 33600; only class 20 has S at most 8400,
/// so packet 3 goes; V 8400 + 2048 * 840 = 1728720.
/// Finish 2: packet 1 goes; V 1737120.
/// Finish 3: class 10 has S 33600 (not V 1737120), F 50400; packet 2 goes; V 1745520.
#[test]
fn the_next_queued_packet_starts_at_the_old_finish() {
    let events = [
        (10, 10),
        (10, 10),
        (10, 10),
        (20, 2048),
        FINISH,
        FINISH,
        FINISH,
        FINISH,
    ];
    let outcome = accepted(&HALVES, &events);
    assert_eq!(outcome.order, [0, 3, 1, 2]);
    assert_eq!(
        outcome.report,
        [
            [2078, 0, 0, 1745520, 0],
            [30, 33600, 50400, 0, 0],
            [2048, 8400, 3449040, 0, 0],
        ]
    );
}

/// Rows 2 and 3 have the tags of the run above; a byte costs classes 4 and 5 840.
/// Event 0: class 4 has S 0, F 8400; row 1 V 8400, S 0, F 16800; root V 8400.
/// Event 3: class 5 has S 0, F 1720320; row 2 V 1720320, S 8400, F 3449040.
/// Finish 1: class 4 S 8400, F 16800; row 1 V 16800, S 16800, F 33600; packet 3 goes.
/// Finish 2: row 2 has no head and keeps its numbers; packet 1 goes; root V 1737120.
/// Finish 3: class 4 S 16800, F 25200; row 1 V 25200, S 33600 (not 1737120), F 50400.
#[test]
fn an_inner_row_whose_packet_finished_starts_at_its_own_finish() {
    let outcome = accepted(&HANDED_DOWN, &HANDED_DOWN_EVENTS);
    assert_eq!(outcome.order, [0, 3, 1, 2]);
    assert_eq!(
        outcome.report,
        [
            [2078, 0, 0, 1745520, 0],
            [30, 33600, 50400, 25200, 0],
            [2048, 8400, 3449040, 1720320, 0],
            [30, 16800, 25200, 0, 0],
            [2048, 0, 1720320, 0, 0],
        ]
    );
}

/// The run above, then a packet for class 4: S 25200, F 33600; row 1 V 33600,
/// S the larger of 50400 and root V 1745520, F 1762320; root V 1753920.
#[test]
fn an_inner_row_that_was_empty_starts_at_its_parents_time() {
    let mut events = HANDED_DOWN_EVENTS.to_vec();
    events.push((4, 10));
    let outcome = accepted(&HANDED_DOWN, &events);
    assert_eq!(outcome.order, [0, 3, 1, 2, 8]);
    assert_eq!(outcome.report[0], [2078, 0, 0, 1753920, 1]);
    assert_eq!(outcome.report[1], [30, 1745520, 1762320, 33600, 1]);
    assert_eq!(outcome.report[3], [30, 25200, 33600, 0, 1]);
}

/// Event 0: class 20 has S 0, F 1680000; root V 840000.
/// Event 1: class 10 has S 840000, F 856800.
/// Finish 1: class 20 has S 1680000, F 3360000; packet 1 goes; V 848400.
/// Finish 2: class 10 has S 856800, F 873600; V jumps to 856800, packet 2 goes;
/// V 865200. Without the renewed head class 20 alone would be there to choose.
/// Finish 3: V jumps to 1680000, packet 3 goes; V 2520000.
#[test]
fn a_class_renews_its_head_before_its_parent_chooses() {
    let events = [
        (20, 1000),
        (10, 10),
        (10, 10),
        (20, 1000),
        FINISH,
        FINISH,
        FINISH,
        FINISH,
    ];
    let outcome = accepted(&HALVES, &events);
    assert_eq!(outcome.order, [0, 1, 2, 3]);
    assert_eq!(
        outcome.report,
        [
            [2020, 0, 0, 2520000, 0],
            [20, 856800, 873600, 0, 0],
            [2000, 1680000, 3360000, 0, 0],
        ]
    );
}

/// A byte costs rows 1 to 3 2,520.
/// Event 0: class 4 has S 0, F 252000; root V 84000.
/// Events 1, 2: row 2 and then row 1 have S 84000, F 336000, and heads 1 and 2.
/// Finish 1: packet 1 goes, from the higher row; V 168000. Packet 2 goes; V 252000.
/// Event 6: class 4 has S 252000, F 504000; root V 336000.
/// Events 7, 8: row 1 and then row 2 have S 336000, F 588000, and heads 7 and 8.
/// Finish 4: packet 7 goes, from the lower row; V 420000. Packet 8 goes; V 504000.
#[test]
fn inner_rows_of_equal_finish_go_by_the_arrivals_far_below_them() {
    let outcome = accepted(&DEEP_THIRDS, &DEEP_EVENTS);
    assert_eq!(outcome.order, [0, 1, 2, 6, 7, 8]);
    assert_eq!(outcome.report[0], [600, 0, 0, 504000, 0]);
    assert_eq!(outcome.report[1], [200, 336000, 588000, 168000, 0]);
    assert_eq!(outcome.report[2], [200, 336000, 588000, 168000, 0]);
}

/// P3 with its classes below a chain, at each depth: the row above them has the root's tags,
/// and chooses between the second and the third class when the first one's packet finishes.
#[test]
fn equal_finishes_go_by_arrival_at_every_depth() {
    for depth in 1..=8 {
        let mut rows = chain(depth - 1);
        let above = rows[rows.len() - 1].0;
        rows.extend([(101, above, 280), (102, above, 280), (103, above, 280)]);
        let events = [(101, 100), (103, 100), (102, 100), FINISH, FINISH, FINISH];
        assert_eq!(accepted(&rows, &events).order, [0, 1, 2]);
    }
}

/// Event 0: class 10 has S 0, F 378000; root V 126000.
/// Events 2, 3: class 20 has S 126000, F 1134000; class 30 S 126000, F 882000.
/// Finish 1: packet 1 is class 10's head, S 378000, F 1134000; packet 3 goes; V 378000.
/// Finish 2: packet 2 has been a head for longer, but packet 1 arrived first and goes.
#[test]
fn a_head_has_waited_since_it_arrived_and_not_since_it_became_the_head() {
    let events = [
        (10, 150),
        (10, 300),
        (20, 400),
        (30, 300),
        FINISH,
        FINISH,
        FINISH,
    ];
    let outcome = accepted(&THIRDS, &events);
    assert_eq!(outcome.order, [0, 3, 1, 2]);
    assert_eq!(outcome.report[1][1..3], [378000, 1134000]);
    assert_eq!(outcome.report[2][1..3], [126000, 1134000]);
}

/// Row 1 and classes 3 and 4 have the tags of classes 10, 20 and 30 in the run above.
/// Event 0: class 5 has S 0, F 252000; row 1 V 126000. Event 3: class 6 has S 126000.
/// Finish 1: packet 1 is class 5's head, but S 252000 is over V 126000, so row 1 takes
/// packet 3; packet 4 goes.
/// Finish 2: row 1 holds packet 1, but its head arrived after class 3's: packet 2 goes.
/// Finish 3: packet 3 goes. Finish 4: packet 1 goes.
#[test]
fn a_row_goes_by_its_head_and_not_by_the_earliest_packet_it_holds() {
    let rows = [
        ROOT,
        (2, 1, 280),
        (3, 1, 280),
        (4, 1, 280),
        (5, 2, 420),
        (6, 2, 420),
    ];
    let events = [
        (5, 150),
        (5, 150),
        (3, 400),
        (6, 300),
        (4, 300),
        FINISH,
        FINISH,
        FINISH,
        FINISH,
    ];
    let outcome = accepted(&rows, &events);
    assert_eq!(outcome.order, [0, 4, 2, 3, 1]);
    assert_eq!(outcome.report[1][1..4], [1134000, 1512000, 504000]);
    assert_eq!(outcome.report[2][1..3], [126000, 1134000]);
}

/// Event 0: class 10 has S 0, F 252000; root V 84000.
/// Events 1, 2: classes 20 and 30 have S 84000, F 336000, and heads 1 and 2.
/// Finish 1: packet 1 goes, although class 20's last packet is 3.
#[test]
fn a_class_goes_by_its_head_and_not_by_its_last_packet() {
    let events = [
        (10, 100),
        (20, 100),
        (30, 100),
        (20, 100),
        FINISH,
        FINISH,
        FINISH,
    ];
    assert_eq!(accepted(&THIRDS, &events).order, [0, 1, 2, 3]);
}

/// Event 0: class 10 has S 0, F 252000; root V 84000.
/// Events 1, 2: class 20 has S 84000, F 588000; class 30 S 84000, F 336000.
/// Finish 1: packet 2 goes, since its finish is less.
#[test]
fn arrivals_are_compared_only_where_finishes_are_equal() {
    let events = [(10, 100), (20, 200), (30, 100), FINISH, FINISH];
    assert_eq!(accepted(&THIRDS, &events).order, [0, 2, 1]);
}

/// In P3 the root chooses three times, once between rows 2 and 3. In the deep run it chooses
/// six times, twice between rows 1 and 2, and the rows below it eight times.
#[test]
fn choices_that_the_place_decides_are_counted() {
    assert_eq!(choices(&THIRDS, &P3_EVENTS), [3, 1, 1]);
    assert_eq!(choices(&DEEP_THIRDS, &DEEP_EVENTS), [14, 2, 1]);
}

/// A byte costs class 10 705,600, class 20 352,800 and class 30 1,680.
/// Event 0: class 30 has S 0, F 1680; packet 0 goes; root V 840.
/// Event 1: class 10 has S 840, F 840 + 9000 * 705600 = 6350400840.
/// Event 2: class 20 has S 840, F 840 + 9000 * 352800 = 3175200840.
/// Finish 1: packet 2 goes; V 840 + 9000 * 840 = 7560840. In 32 bits class 10's charge would
/// be 2055432704, less than class 20's, and packet 1 would go.
/// Finish 2: packet 1 goes; V 15120840.
#[test]
fn a_charge_over_32_bits_is_whole() {
    let rows = [ROOT, (10, 1, 1), (20, 1, 2), (30, 1, 420)];
    let events = [(30, 1), (10, 9000), (20, 9000), FINISH, FINISH, FINISH];
    let outcome = accepted(&rows, &events);
    assert_eq!(outcome.order, [0, 2, 1]);
    assert_eq!(
        outcome.report,
        [
            [18001, 0, 0, 15120840, 0],
            [9000, 840, 6350400840, 0, 0],
            [9000, 840, 3175200840, 0, 0],
            [1, 0, 1680, 0, 0],
        ]
    );
}

/// 6,086 * 705,600 is the last charge under share 1 within 32 bits.
#[test]
fn charges_on_both_sides_of_32_bits_are_whole() {
    for (length, finish) in [(6086, 4294281600), (6087, 4294987200)] {
        let outcome = accepted(&[ROOT, (10, 1, 1)], &[(10, length)]);
        assert_eq!(outcome.report[1][2], finish);
    }
}

/// P4 cut after its first finish: class 4 is empty, but its parent still holds
/// class 5's packet, so the parent's backlog goes on from event 0.
#[test]
fn an_inner_class_is_behind_as_long_as_anything_below_it_waits() {
    let outcome = accepted(&P4_ROWS, &[(4, 100), (3, 100), (5, 100), FINISH]);
    assert_eq!(outcome.held(), [2, 1, 1, 0, 1]);
    assert_eq!(outcome.lags, [0, -42000, 42000, 0, 42000]);
}

/// Class 10 is empty after the first finish and holds a packet again from event 3.
/// Since then the line has finished 100 bytes and class 10 none.
#[test]
fn a_lag_counts_from_the_last_empty_moment_only() {
    let events = [(10, 100), (20, 100), FINISH, (10, 50), FINISH];
    let outcome = accepted(&HALVES, &events);
    assert_eq!(outcome.order, [0, 1, 3]);
    assert_eq!(outcome.lags, [0, 42000, 0]);
}
