//! Lengths of all lent slices: refusals 1, 2 and 3 and their edges, and full lists.

use second::Room;

use crate::common::{
    accepted, chain, marked, refused, refused_columns, wide, Columns, Event, Outcome, Row, FINISH,
    HALVES, P1_EVENTS, ROOT,
};

/// The greatest charge: 9,000 bytes under share 1.
const CHARGE: u64 = 9_000 * 705_600;

fn p1_columns() -> Columns {
    Columns::new(&HALVES, &P1_EVENTS)
}

/// P1 over slices of exactly the right length, changed by `shorten`.
fn refused_room(shorten: fn(&mut Room)) -> (u32, u32, u32) {
    let mut room = marked(3, 6, 0);
    shorten(&mut room);
    refused_columns(&p1_columns(), &room)
}

/// P1 with its columns changed by `change`, over slices long enough.
fn refused_change(change: fn(&mut Columns)) -> (u32, u32, u32) {
    let mut columns = p1_columns();
    change(&mut columns);
    refused_columns(&columns, &marked(3, 6, 3))
}

#[test]
fn no_rows_are_refused() {
    assert_eq!(refused(&[], &[]), (1, 0, 0));
}

#[test]
fn one_row_is_refused() {
    assert_eq!(refused(&[ROOT], &[]), (1, 0, 0));
}

#[test]
fn two_rows_are_accepted() {
    accepted(&wide(2), &[(1001, 1)]);
}

#[test]
fn rows_256_are_accepted() {
    let outcome = accepted(&wide(256), &[(1255, 7), FINISH]);
    assert_eq!(outcome.report[255], [7, 0, 7 * 235_200, 0, 0]);
}

#[test]
fn rows_257_are_refused() {
    assert_eq!(refused(&wide(257), &[]), (1, 0, 0));
}

#[test]
fn a_short_identifier_slice_gives_1() {
    assert_eq!(refused_change(|c| c.identifiers.truncate(2)), (1, 0, 0));
}

#[test]
fn a_short_parent_slice_gives_1() {
    assert_eq!(refused_change(|c| c.parents.truncate(2)), (1, 0, 0));
}

#[test]
fn a_long_share_slice_gives_1() {
    assert_eq!(refused_change(|c| c.shares.push(1)), (1, 0, 0));
}

#[test]
fn a_short_class_slice_gives_2() {
    assert_eq!(refused_change(|c| c.classes.truncate(5)), (2, 0, 0));
}

#[test]
fn a_long_length_slice_gives_2() {
    assert_eq!(refused_change(|c| c.lengths.push(0)), (2, 0, 0));
}

/// Runs a full list with packets of up to 9,000 bytes, and looks at what holds of every list:
/// after n events no tag is over n * 705,600 * 9,000, and no lag is over 2,520 * 9,000. At
/// most half of the events are finishes, so no byte count is over n / 2 * 9,000.
fn full(rows: &[Row], events: &[Event]) -> Outcome {
    assert_eq!(events.len(), 65_536);
    let outcome = accepted(rows, events);
    for [bytes, tags @ .., _] in &outcome.report {
        assert!(tags.iter().all(|tag| *tag <= 65_536 * CHARGE));
        assert!(*bytes <= 32_768 * 9_000);
    }
    assert!(outcome.lags.iter().all(|lag| *lag <= 2_520 * 9_000));
    outcome
}

/// So many packets of 9,000 bytes for the class, then finishes up to 65,536 events.
fn then_finished(class: u32, packets: usize) -> Vec<Event> {
    let mut events = vec![(class, 9_000); packets];
    events.resize(65_536, FINISH);
    events
}

/// A chain down to depth 8, class 80, in which every class has share 1.
fn steep() -> Vec<Row> {
    let mut rows = chain(8);
    rows[1..].iter_mut().for_each(|row| row.2 = 1);
    rows
}

#[test]
fn events_65536_that_all_wait_are_accepted() {
    let outcome = full(&HALVES, &then_finished(10, 65_536));
    assert_eq!(outcome.order, [0]);
    assert_eq!(outcome.held(), [65_536, 65_536, 0]);
    assert_eq!(outcome.report[1], [0, 0, 9_000 * 1_680, 0, 65_536]);
    assert_eq!(outcome.lags, [0, 0, 0]);
}

/// Each packet costs its class and the rows above it one greatest charge, but for the root,
/// which is charged nothing. Of the last one
/// the start is 32,767 charges, and a row above goes 9,000 * 840 beyond that.
#[test]
fn events_65536_that_all_go_out_are_accepted() {
    let in_turn = [(80, 9_000), FINISH].repeat(32_768);
    for (events, step) in [(in_turn, 2), (then_finished(80, 32_768), 1)] {
        let outcome = full(&steep(), &events);
        let places = (0..).step_by(step).take(32_768);
        assert_eq!(outcome.order, places.collect::<Vec<u32>>());
        let (bytes, start) = (32_768 * 9_000, 32_767 * CHARGE);
        let [finish, above] = [start + CHARGE, start + 9_000 * 840];
        assert_eq!(outcome.report[0], [bytes, 0, 0, above, 0]);
        for row in 1..8 {
            assert_eq!(outcome.report[row], [bytes, start, finish, above, 0]);
        }
        assert_eq!(outcome.report[8], [bytes, start, finish, 0, 0]);
    }
}

/// 32,767 packets of 9,000 bytes are finished and two are held. Each class has had all that
/// its parent sent, so its lag is 1 - 840 times these bytes.
#[test]
fn a_lag_may_be_far_below_what_32_bits_hold() {
    let outcome = full(&steep(), &then_finished(80, 32_769));
    assert_eq!(outcome.held(), [2; 9]);
    assert_eq!(outcome.lags[0], 0);
    assert_eq!(outcome.lags[1..], [-839 * 32_767 * 9_000; 8]);
}

/// Class 20 waits for the packet of 9,000 bytes that class 10 has on the line.
#[test]
fn a_class_may_be_behind_by_its_share_of_the_longest_packet() {
    let mut events: Vec<Event> = vec![(20, 1); 65_536];
    events[0] = (10, 9_000);
    events[65_535] = FINISH;
    let outcome = full(&[ROOT, (10, 1, 1), (20, 1, 800)], &events);
    assert_eq!(outcome.order, [0, 1]);
    assert_eq!(outcome.lags, [0, 0, 800 * 9_000]);
}

/// Rounds over 255 classes, to which a packet costs 9,000 * 235,200. The first class starts at
/// 0, the others when its packet is on the line. The first 128 classes have 129 packets, the
/// rest 128.
#[test]
fn rounds_of_the_longest_packets_over_255_classes_are_accepted() {
    let classes = (1001..1256).cycle().take(32_768);
    let mut events: Vec<Event> = classes.map(|class| (class, 9_000)).collect();
    events.resize(65_536, FINISH);
    let outcome = full(&wide(256), &events);
    let (line, packet) = (9_000 * 840, 9_000 * 235_200);
    assert_eq!(outcome.report[0][0], 32_768 * 9_000);
    assert_eq!(
        outcome.report[1][..3],
        [129 * 9_000, 128 * packet, 129 * packet]
    );
    for (row, report) in outcome.report.iter().enumerate().skip(2) {
        let packets = if row <= 128 { 129 } else { 128 };
        let finish = line + packets * packet;
        assert_eq!(report[..3], [packets * 9_000, finish - packet, finish]);
    }
}

#[test]
fn a_packet_too_long_is_refused_at_the_end_of_a_full_list() {
    let mut events = then_finished(80, 32_768);
    events[65_535] = (80, 9_001);
    assert_eq!(refused(&steep(), &events), (13, 65_535, 0));
}

#[test]
fn events_65537_are_refused() {
    assert_eq!(refused(&HALVES, &vec![(10, 1); 65_537]), (2, 0, 0));
}

#[test]
fn slices_of_exactly_the_right_length_are_accepted() {
    let mut room = marked(3, 6, 0);
    let answer = p1_columns().run(&mut room);
    assert_eq!((answer.number, answer.count), (0, 3));
    assert_eq!(room.lags, [0, 0, 0]);
}

#[test]
fn an_order_slice_one_word_short_gives_3() {
    assert_eq!(refused_room(|r| r.order.truncate(5)), (3, 0, 0));
}

#[test]
fn a_report_slice_one_word_short_gives_3() {
    assert_eq!(refused_room(|r| r.report.truncate(14)), (3, 0, 0));
}

#[test]
fn a_lag_slice_one_word_short_gives_3() {
    assert_eq!(refused_room(|r| r.lags.truncate(2)), (3, 0, 0));
}

#[test]
fn a_working_slice_one_word_short_gives_3() {
    assert_eq!(refused_room(|r| r.working.truncate(5)), (3, 0, 0));
}

#[test]
fn empty_order_and_working_slices_do_for_no_event() {
    let mut room = marked(3, 0, 0);
    assert_eq!(Columns::new(&HALVES, &[]).run(&mut room).number, 0);
    assert_eq!(room.report, [0; 15]);
}
