//! The list that a capture makes: classes, moments, refusals 1 to 13 over it, and its limits.

use second::capture::Capture;

use crate::common::captures::{
    accepted_capture, even, packet, refused_capture, refused_over, Record, Slices, EVEN, FIRST,
    MICRO, NANO, SECOND, THIRD,
};
use crate::common::{chain, wide, Columns, Event, Row, FINISH, HALVES, ROOT, THIRDS, TWO_LEVELS};

/// The list that these records make at this rate, for classes 10 and 20.
fn list(rate: u32, records: &[Record]) -> Vec<Event> {
    let bytes = MICRO.capture(records);
    let capture = Capture {
        rate,
        ..even(&bytes)
    };
    accepted_capture(capture, &HALVES)
}

/// What records that must be refused over these rows and classes are answered.
fn refused(classes: [u32; 3], rows: &[Row], records: &[Record]) -> (u32, u32, u32) {
    let bytes = MICRO.capture(records);
    let capture = Capture {
        classes,
        ..even(&bytes)
    };
    refused_capture(capture, rows)
}

#[test]
fn no_record_makes_an_empty_list() {
    assert!(list(EVEN, &[]).is_empty());
}

#[test]
fn each_code_point_has_its_class() {
    for code_point in 0..64 {
        let bytes = MICRO.capture(&[(0, code_point, 7)]);
        let capture = Capture {
            classes: [10, 20, 30],
            ..even(&bytes)
        };
        let class = match code_point {
            46 | 48.. => 10,
            8..40 => 20,
            _ => 30,
        };
        let list = accepted_capture(capture, &THIRDS);
        assert_eq!(list, [(class, 7), FINISH], "{code_point}");
    }
}

#[test]
fn the_two_bits_below_a_code_point_are_not_looked_at() {
    for low in 0..4 {
        let mut header = packet(FIRST);
        header[1] = (FIRST << 2) | low;
        let record = MICRO.record([0, 0], 7, &header);
        let bytes = [MICRO.header([2, 4], 101), record].concat();
        assert_eq!(accepted_capture(even(&bytes), &HALVES), [(10, 7), FINISH]);
    }
}

#[test]
fn a_finish_at_the_moment_of_an_arrival_comes_first() {
    let at = |second| list(EVEN, &[(0, FIRST, 80), (second, SECOND, 1)]);
    assert_eq!(at(79), [(10, 80), (20, 1), FINISH, FINISH]);
    assert_eq!(at(80), [(10, 80), FINISH, (20, 1), FINISH]);
    assert_eq!(at(81), [(10, 80), FINISH, (20, 1), FINISH]);
}

#[test]
fn a_finish_comes_before_all_arrivals_of_its_moment() {
    let records = [(0, FIRST, 80), (80, SECOND, 1), (80, FIRST, 2)];
    let expected = [(10, 80), FINISH, (20, 1), (10, 2), FINISH, FINISH];
    assert_eq!(list(EVEN, &records), expected);
}

#[test]
fn several_finishes_may_stand_before_an_arrival() {
    let records = [
        (0, FIRST, 80),
        (1, FIRST, 10),
        (2, FIRST, 10),
        (99, SECOND, 1),
    ];
    let begin = [(10, 80), (10, 10), (10, 10), FINISH, FINISH];
    let rest = [(20, 1), FINISH, FINISH];
    assert_eq!(list(EVEN, &records), [&begin[..], &rest].concat());
    let records = [&records[..3], &[(100, SECOND, 1)]].concat();
    let rest = [FINISH, (20, 1), FINISH];
    assert_eq!(list(EVEN, &records), [&begin[..], &rest].concat());
}

/// At 3 bytes a microsecond; the arrival a microsecond before the finish stands before it.
#[test]
fn sending_time_is_rounded_up() {
    for (length, time) in [
        (1, 1),
        (2, 1),
        (3, 1),
        (4, 2),
        (6, 2),
        (7, 3),
        (9_000, 3_000),
    ] {
        let at = |second| list(3_000_000, &[(0, FIRST, length), (second, SECOND, 1)]);
        let before = [(10, length), (20, 1), FINISH, FINISH];
        let after = [(10, length), FINISH, (20, 1), FINISH];
        assert_eq!(at(time - 1), before);
        assert_eq!(at(time), after);
    }
}

#[test]
fn sending_time_is_rounded_up_at_the_highest_rate() {
    let at = |second| list(u32::MAX, &[(0, FIRST, 9_000), (second, SECOND, 1)]);
    // 9,000,000,000 over 4,294,967,295 is more than 2.
    assert_eq!(at(2), [(10, 9_000), (20, 1), FINISH, FINISH]);
    assert_eq!(at(3), [(10, 9_000), FINISH, (20, 1), FINISH]);
    let records = [(0, FIRST, 1), (1, SECOND, 1)];
    let expected = [(10, 1), FINISH, (20, 1), FINISH];
    assert_eq!(list(u32::MAX, &records), expected);
}

#[test]
fn a_packet_takes_its_bytes_in_seconds_at_rate_1() {
    let at = |second| list(1, &[(0, FIRST, 9_000), (second, SECOND, 1)]);
    assert_eq!(at(8_999_999_999)[1], (20, 1));
    assert_eq!(at(9_000_000_000)[1], FINISH);
}

/// The next packet goes on the line when the one before it is finished, and not at its stamp.
#[test]
fn a_packet_that_waited_is_sent_from_the_finish_before_it() {
    let at = |last| list(EVEN, &[(0, FIRST, 50), (20, FIRST, 50), (last, SECOND, 1)]);
    let waiting = [(10, 50), (10, 50), FINISH];
    assert_eq!(at(99), [&waiting[..], &[(20, 1), FINISH, FINISH]].concat());
    assert_eq!(at(100), [&waiting[..], &[FINISH, (20, 1), FINISH]].concat());
}

#[test]
fn a_packet_that_finds_the_line_idle_is_sent_from_its_stamp() {
    let at = |last| list(EVEN, &[(0, FIRST, 50), (70, FIRST, 50), (last, SECOND, 1)]);
    let idle = [(10, 50), FINISH, (10, 50)];
    assert_eq!(at(119), [&idle[..], &[(20, 1), FINISH, FINISH]].concat());
    assert_eq!(at(120), [&idle[..], &[FINISH, (20, 1), FINISH]].concat());
}

/// At 1,500 class 20 is chosen, whose packet of 100 bytes is finished before the last arrival; the
/// other packet that waits would not be.
#[test]
fn the_packet_on_the_line_decides_where_a_finish_stands() {
    let records = [
        (0, FIRST, 1_500),
        (1, FIRST, 1_500),
        (2, SECOND, 100),
        (1_700, SECOND, 100),
    ];
    let arrivals = [(10, 1_500), (10, 1_500), (20, 100), FINISH, FINISH];
    let rest = [(20, 100), FINISH, FINISH];
    assert_eq!(list(EVEN, &records), [&arrivals[..], &rest].concat());
}

#[test]
fn a_packet_has_its_original_length_whatever_is_included() {
    let mut header = packet(FIRST).to_vec();
    for included in [20, 21, 64, 200] {
        header.resize(included, 0xee);
        for length in [1, 20, 80, 9_000] {
            let first = MICRO.record([0, 0], length, &header);
            let second = MICRO.record([0, length - 1], 7, &header);
            let bytes = [MICRO.header([2, 4], 101), first, second].concat();
            let expected = [(10, length), (10, 7), FINISH, FINISH];
            assert_eq!(accepted_capture(even(&bytes), &HALVES), expected);
        }
    }
}

/// The second record's stamp is 1,000,079 or 1,000,080 microseconds, the first one's 1,000,000.
#[test]
fn a_part_of_a_million_microseconds_carries() {
    for (form, one) in [(MICRO, 1), (NANO, 1_000)] {
        let at = |part: u32| {
            let header = form.header([2, 4], 101);
            let first = form.record([1, 0], 80, &packet(FIRST));
            let second = form.record([0, part], 1, &packet(SECOND));
            let bytes = [header, first, second].concat();
            accepted_capture(even(&bytes), &HALVES)[1]
        };
        assert_eq!(at(1_000_079 * one), (20, 1));
        assert_eq!(at(1_000_080 * one), FINISH);
        // The last moment before that, which is still in the same microsecond.
        assert_eq!(at(1_000_080 * one - 1), (20, 1));
    }
}

/// Two packets, one finished before the third record.
const BEFORE: [Record; 2] = [(0, FIRST, 10), (5, FIRST, 10)];

/// `BEFORE` and a record of another class.
fn refused_third(classes: [u32; 3], rows: &[Row], length: u32) -> (u32, u32, u32) {
    let records = [&BEFORE[..], &[(10, THIRD, length)]].concat();
    refused(classes, rows, &records)
}

#[test]
fn a_class_that_no_row_has_gives_11_at_its_event() {
    for class in [77, 65_546, u32::MAX] {
        for length in [0, 1, 9_001] {
            let answer = refused_third([10, 20, class], &HALVES, length);
            assert_eq!(answer, (11, 3, 0));
        }
    }
}

#[test]
fn a_class_that_does_not_send_gives_12_at_its_event() {
    for length in [0, 1, 9_001] {
        let answer = refused_third([10, 20, 1], &HALVES, length);
        assert_eq!(answer, (12, 3, 0));
        let answer = refused_third([3, 3, 2], &TWO_LEVELS, length);
        assert_eq!(answer, (12, 3, 0));
    }
}

#[test]
fn a_length_of_0_or_over_9000_gives_13_at_its_event() {
    for length in [0, 9_001, 65_536, 65_546, u32::MAX] {
        let answer = refused_third([10, 20, 20], &HALVES, length);
        assert_eq!(answer, (13, 3, 0));
    }
    let longest = [(0, FIRST, 1), (0, FIRST, 9_000)];
    assert_eq!(list(EVEN, &longest)[1], (10, 9_000));
}

#[test]
fn class_0_gives_13_at_its_event_whatever_the_length() {
    for length in [0, 1, 9_000, 9_001, u32::MAX] {
        let answer = refused_third([10, 20, 0], &HALVES, length);
        assert_eq!(answer, (13, 3, 0));
        let answer = refused([0, 20, 20], &HALVES, &[(0, FIRST, length)]);
        assert_eq!(answer, (13, 0, 0));
    }
}

#[test]
fn classes_that_no_record_is_for_are_not_looked_at() {
    let bytes = MICRO.capture(&[(0, SECOND, 1)]);
    for unused in [0, 1, 77, u32::MAX] {
        let capture = Capture {
            classes: [unused, 20, unused],
            ..even(&bytes)
        };
        assert_eq!(accepted_capture(capture, &HALVES), [(20, 1), FINISH]);
    }
}

#[test]
fn the_first_refused_record_is_the_answer() {
    let records = [(0, THIRD, 0), (0, SECOND, 1), (0, FIRST, 1)];
    assert_eq!(refused([77, 1, 10], &HALVES, &records), (13, 0, 0));
    assert_eq!(refused([77, 1, 10], &HALVES, &records[1..]), (12, 0, 0));
    assert_eq!(refused([77, 1, 10], &HALVES, &records[2..]), (11, 0, 0));
}

#[test]
fn faults_of_the_table_come_before_those_of_events() {
    let unknown = [(0, FIRST, 0)];
    let tables = [
        (vec![ROOT], (1, 0, 0)),
        (vec![ROOT, (0, 1, 420)], (4, 1, 0)),
        (vec![ROOT, (10, 1, 420), (10, 1, 420)], (5, 2, 1)),
        (vec![(1, 0, 840), (10, 1, 420)], (6, 0, 0)),
        (vec![ROOT, (10, 2, 420)], (7, 1, 0)),
        (vec![ROOT, (10, 1, 841)], (8, 1, 0)),
        (chain(9), (9, 9, 0)),
        (vec![ROOT, (10, 1, 840), (20, 1, 1)], (10, 0, 0)),
        (vec![ROOT, (65_536, 1, 420)], (15, 1, 0)),
        (HALVES.to_vec(), (11, 0, 0)),
    ];
    for (rows, expected) in tables {
        assert_eq!(refused([77; 3], &rows, &unknown), expected);
    }
}

/// So many records at one moment, of one byte each.
fn many(records: usize) -> Vec<u8> {
    MICRO.capture(&vec![(0, FIRST, 1); records])
}

#[test]
fn records_32768_are_accepted() {
    let bytes = many(32_768);
    let mut expected = vec![(10, 1); 32_768];
    expected.resize(65_536, FINISH);
    assert_eq!(accepted_capture(even(&bytes), &HALVES), expected);
}

#[test]
fn the_longest_packets_are_sent_at_rate_1() {
    let bytes = MICRO.capture(&vec![(4_294_967_295_999_999, FIRST, 9_000); 32_768]);
    let capture = Capture {
        rate: 1,
        ..even(&bytes)
    };
    assert_eq!(accepted_capture(capture, &HALVES).len(), 65_536);
}

#[test]
fn records_32769_give_2() {
    let bytes = many(32_769);
    assert_eq!(refused_capture(even(&bytes), &HALVES), (2, 0, 0));
}

#[test]
fn refusals_1_and_2_come_before_3() {
    let bytes = many(32_769);
    assert_eq!(refused_capture(even(&bytes), &wide(257)), (1, 0, 0));
    let slices = Slices::marked(0, 0, 0);
    let table = Columns::new(&HALVES, &[]);
    assert_eq!(refused_over(&slices, even(&bytes), &table), (2, 0, 0));
}

/// Two records over slices of exactly the right length, changed by `shorten`, and a refused table.
fn refused_slices(shorten: fn(&mut Slices)) -> (u32, u32, u32) {
    let bytes = MICRO.capture(&BEFORE);
    let table = Columns::new(&[ROOT, (0, 1, 420), (10, 1, 420)], &[]);
    let mut slices = Slices::marked(3, 2, 0);
    shorten(&mut slices);
    refused_over(&slices, even(&bytes), &table)
}

#[test]
fn a_slice_one_word_short_gives_3_before_4() {
    assert_eq!(refused_slices(|s| s.classes.truncate(3)), (3, 0, 0));
    assert_eq!(refused_slices(|s| s.lengths.truncate(3)), (3, 0, 0));
    assert_eq!(refused_slices(|s| s.room.order.truncate(3)), (3, 0, 0));
    assert_eq!(refused_slices(|s| s.room.report.truncate(14)), (3, 0, 0));
    assert_eq!(refused_slices(|s| s.room.lags.truncate(2)), (3, 0, 0));
    assert_eq!(refused_slices(|s| s.room.working.truncate(3)), (3, 0, 0));
    assert_eq!(refused_slices(|_| ()), (4, 1, 0));
}

#[test]
fn slices_of_exactly_the_right_length_are_enough() {
    let bytes = MICRO.capture(&BEFORE);
    let mut slices = Slices::marked(3, 2, 0);
    let answer = slices.replay(even(&bytes), &Columns::new(&HALVES, &[]));
    assert_eq!((answer.number, answer.count), (0, 2));
    assert_eq!(slices.classes, [10, 10, 0, 0]);
    assert_eq!(slices.lengths, [10, 10, 0, 0]);
    assert_eq!(slices.room.order[..2], [0, 1]);
}

#[test]
fn table_slices_that_differ_give_1() {
    let bytes = MICRO.capture(&BEFORE);
    let mut table = Columns::new(&HALVES, &[]);
    table.shares.pop();
    let slices = Slices::marked(3, 2, 0);
    assert_eq!(refused_over(&slices, even(&bytes), &table), (1, 0, 0));
}
