//! Runs where a charge that is not rounded up once a packet would show; the numbers are worked by
//! hand. Under share 756, which is 90 per cent, a byte is 933 and a third.

use crate::common::{accepted, chain, Event, Row, FINISH, ROOT};

/// Class 10 has 90 per cent.
const NINETY: [Row; 2] = [ROOT, (10, 1, 756)];

/// A packet of 1 is 933 1/3, one of 2 is 1866 2/3, one of 3 is 2800.
/// Rounded down these would be 933, 1866 and 2800, to the nearest 933, 1867 and 2800, and byte
/// by byte 934, 1868 and 2802.
#[test]
fn a_charge_is_rounded_up_and_a_whole_one_stays() {
    for (length, finish) in [(1, 934), (2, 1867), (3, 2800), (9000, 8_400_000)] {
        let outcome = accepted(&NINETY, &[(10, length), FINISH]);
        assert_eq!(
            outcome.report[0],
            [length.into(), 0, 0, u64::from(length) * 840, 0]
        );
        assert_eq!(outcome.report[1], [length.into(), 0, finish, 0, 0]);
    }
}

/// Two packets of 1 are 934 each; together they would be 1867.
#[test]
fn each_of_two_packets_is_rounded() {
    let outcome = accepted(&NINETY, &[(10, 1), (10, 1), FINISH, FINISH]);
    assert_eq!(outcome.report[1], [2, 934, 1868, 0, 0]);
}

/// 200 times 934 and 1867 is 560200, at each row of a chain. The 600 bytes together would be
/// 560000, and so would the packets to the nearest; rounded down these would be 559800, and
/// byte by byte 560400.
#[test]
fn rounding_adds_up_over_many_packets_at_each_depth() {
    let mut rows = chain(8);
    rows[1..].iter_mut().for_each(|row| row.2 = 756);
    let mut events = [(80, 1), (80, 2)].repeat(200);
    events.extend([FINISH; 400]);
    let outcome = accepted(&rows, &events);
    for report in &outcome.report[1..] {
        assert_eq!(report[..3], [600, 560_200 - 1867, 560_200]);
    }
}

/// Event 0: class 10 has S 0, F 934; root V 840. Finish 1: the line is idle.
/// Event 2: class 10 has S 934, F 934 + 1867; V rises to 934 and then by 1680.
#[test]
fn virtual_time_rises_to_a_rounded_start() {
    let outcome = accepted(&NINETY, &[(10, 1), FINISH, (10, 2), FINISH]);
    assert_eq!(outcome.report[0], [3, 0, 0, 2614, 0]);
    assert_eq!(outcome.report[1], [3, 934, 2801, 0, 0]);
}

/// The rows in this order and in the reverse one, under the root.
fn both_row_orders(rows: &[Row]) -> [Vec<Row>; 2] {
    let reversed: Vec<Row> = rows.iter().rev().copied().collect();
    [rows.to_vec(), reversed].map(|rows| [&[ROOT], &rows[..]].concat())
}

/// A packet of 1 for class 40, so that what follows begins at V 840, then these, all finished.
fn after_one(packets: &[Event]) -> Vec<Event> {
    let mut events = [&[(40, 1)], packets].concat();
    events.resize(2 * events.len(), FINISH);
    events
}

/// Events 1, 2: class 10 has S 840, F 840 + 14934 (14933 1/3).
/// Events 3, 4: class 20 has F 840 + 23520, class 30 F 840 + 33600.
/// Finish 1: packet 1 goes; V 840 + 16 * 840 = 14280; class 10 has S 15774, not yet eligible,
/// and F 15774 + 18667 (18666 2/3) = 34441. Finish 2: packet 3 goes; V 15960.
/// Finish 3: class 30's finish is 34440, one tick less: packet 4 goes. If both charges of class 10
/// were rounded to the nearest, or their sum was, it would be 34440 too, and rounded down 34439:
/// packet 2 arrived first and would go.
#[test]
fn one_tick_of_rounding_decides_the_order() {
    let rows = [(10, 1, 756), (20, 1, 60), (30, 1, 21), (40, 1, 3)];
    let events = after_one(&[(10, 16), (10, 20), (20, 2), (30, 1)]);
    for rows in both_row_orders(&rows) {
        let outcome = accepted(&rows, &events);
        assert_eq!(outcome.order, [0, 1, 3, 4, 2]);
        let finish = |class| {
            let row = rows.iter().position(|row| row.0 == class);
            outcome.report[row.expect("the class has a row")][2]
        };
        assert_eq!([10, 20, 30, 40].map(finish), [34441, 24360, 34440, 235_200]);
    }
}

/// Class 10's packets are 13067 (13066 2/3) each, class 20's 25200 and class 30's 26134
/// (26133 1/3).
/// Finish 1: class 10's first packet goes; V 840 + 14 * 840 = 12600; its second one has S 13907,
/// F 26974. Finish 2: class 20's goes; V 14280.
/// Finish 3: class 30's finish is 26974 too, so whoever arrived first goes. Rounded down, class 10
/// would be one tick before class 30, and to the nearest one tick behind it.
#[test]
fn finishes_that_rounding_makes_equal_go_by_arrival() {
    let rows = [(10, 1, 756), (20, 1, 56), (30, 1, 27), (40, 1, 1)];
    let last_of_10 = after_one(&[(10, 14), (20, 2), (30, 1), (10, 14)]);
    let last_of_30 = after_one(&[(10, 14), (20, 2), (10, 14), (30, 1)]);
    for rows in both_row_orders(&rows) {
        for events in [&last_of_10, &last_of_30] {
            let outcome = accepted(&rows, events);
            assert_eq!(outcome.order, [0, 1, 2, 3, 4]);
        }
    }
}
