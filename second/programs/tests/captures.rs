//! What is read of a capture: its form, refusals 30 to 38 at their edges, and which comes first.

use second::capture::Capture;

use crate::common::captures::{
    accepted_capture, even, packet, refused_capture, Form, FIRST, FORMS, MICRO, NANO, SECOND,
};
use crate::common::{wide, Event, Row, FINISH, HALVES, ROOT};

/// A capture of two records.
fn two() -> Vec<u8> {
    MICRO.capture(&[(5, FIRST, 100), (5, SECOND, 1_500)])
}

const TWO_LIST: [Event; 4] = [(10, 100), (20, 1_500), FINISH, FINISH];

/// Where the second record of a capture begins that has packets of 20 bytes.
const SECOND_RECORD: usize = 24 + 36;

fn refused(bytes: &[u8]) -> (u32, u32, u32) {
    refused_capture(even(bytes), &HALVES)
}

fn accepted(bytes: &[u8]) -> Vec<Event> {
    accepted_capture(even(bytes), &HALVES)
}

/// `two` with these bytes from this one on.
fn changed(at: usize, bytes: &[u8]) -> Vec<u8> {
    let mut capture = two();
    capture[at..at + bytes.len()].copy_from_slice(bytes);
    capture
}

/// A whole record, and after it one with this packet.
fn then(packet: &[u8]) -> Vec<u8> {
    let first = MICRO.capture(&[(5, FIRST, 100)]);
    [first, MICRO.record([0, 5], 1_500, packet)].concat()
}

/// A capture whose records have these seconds and parts of a second.
fn stamped(form: Form, stamps: &[[u32; 2]]) -> Vec<u8> {
    let mut bytes = form.header([2, 4], 101);
    for stamp in stamps {
        bytes.extend(form.record(*stamp, 100, &packet(FIRST)));
    }
    bytes
}

#[test]
fn both_byte_orders_and_both_resolutions_give_the_same_list() {
    let records = [(3_999_999, FIRST, 100), (4_000_014, SECOND, 1_500)];
    for form in FORMS {
        let capture = form.capture(&records);
        assert_eq!(accepted(&capture), TWO_LIST, "{form:?}");
    }
}

#[test]
fn rate_0_gives_30() {
    let capture = Capture {
        rate: 0,
        ..even(&[])
    };
    assert_eq!(refused_capture(capture, &HALVES), (30, 0, 0));
    let bytes = two();
    let capture = Capture {
        bytes: &bytes,
        ..capture
    };
    assert_eq!(refused_capture(capture, &HALVES), (30, 0, 0));
}

#[test]
fn every_other_rate_is_taken() {
    let bytes = two();
    for rate in [1, 2, u32::MAX] {
        let capture = Capture {
            rate,
            ..even(&bytes)
        };
        assert_eq!(accepted_capture(capture, &HALVES), TWO_LIST);
    }
}

#[test]
fn fewer_than_24_bytes_give_31() {
    let header = MICRO.header([2, 4], 101);
    for bytes in 0..24 {
        assert_eq!(refused(&header[..bytes]), (31, 0, 0));
    }
    assert!(accepted(&header).is_empty());
}

#[test]
fn another_magic_number_gives_32() {
    for at in 0..4 {
        for bit in 0..8 {
            let byte = two()[at] ^ (1 << bit);
            assert_eq!(refused(&changed(at, &[byte])), (32, 0, 0));
        }
    }
    let others = [
        [0; 4],
        [0x0a, 0x0d, 0x0d, 0x0a],
        [0x34, 0xcd, 0xb2, 0xa1],
        [0xb2, 0xa1, 0xd4, 0xc3],
        [0xd4, 0xc3, 0xa1, 0xb2],
        [0x4d, 0x3c, 0xa1, 0xb2],
    ];
    for magic in others {
        assert_eq!(refused(&changed(0, &magic)), (32, 0, 0));
    }
}

#[test]
fn another_version_gives_33() {
    let others = [
        [2, 3],
        [2, 5],
        [1, 4],
        [3, 4],
        [4, 2],
        [0, 0],
        [2, 260],
        [258, 4],
        [512, 1_024],
    ];
    for form in FORMS {
        for version in others {
            assert_eq!(refused(&form.header(version, 101)), (33, 0, 0));
        }
        assert!(accepted(&form.header([2, 4], 101)).is_empty());
    }
}

#[test]
fn another_link_type_gives_34_by_any_of_its_bits() {
    for form in FORMS {
        for bit in 0..32 {
            let bytes = form.header([2, 4], 101 ^ (1 << bit));
            assert_eq!(refused(&bytes), (34, 0, 0));
        }
        for link_type in [0, 1, 12, 228, 101 << 24] {
            assert_eq!(refused(&form.header([2, 4], link_type)), (34, 0, 0));
        }
    }
}

#[test]
fn zone_accuracy_and_snap_length_are_not_looked_at() {
    for byte in [0, 255] {
        assert_eq!(accepted(&changed(8, &[byte; 12])), TWO_LIST);
    }
}

#[test]
fn fewer_than_16_bytes_for_a_record_header_give_35() {
    let bytes = two();
    for (record, begin) in [(0, 24), (1, SECOND_RECORD)] {
        for left in 1..16 {
            assert_eq!(refused(&bytes[..begin + left]), (35, record, 0));
        }
        assert_eq!(refused(&bytes[..begin + 16]), (36, record, 0));
    }
    assert_eq!(accepted(&bytes[..SECOND_RECORD]), [(10, 100), FINISH]);
}

#[test]
fn more_bytes_included_than_are_left_give_36() {
    let bytes = two();
    for included in [21, 22, 255, 256, 1 << 16, 1 << 31, u32::MAX] {
        let bytes = changed(SECOND_RECORD + 8, &MICRO.bytes(included, 4));
        assert_eq!(refused(&bytes), (36, 1, 0));
    }
    for cut in 1..20 {
        assert_eq!(refused(&bytes[..bytes.len() - cut]), (36, 1, 0));
    }
    assert_eq!(accepted(&bytes), TWO_LIST);
}

#[test]
fn a_record_that_includes_no_byte_can_be_the_last() {
    let bytes = then(&[]);
    assert_eq!(refused(&bytes[..bytes.len() - 1]), (35, 1, 0));
    assert_eq!(refused(&bytes), (37, 1, 0));
}

#[test]
fn fewer_than_20_bytes_included_give_37() {
    let header = packet(SECOND);
    for included in 0..20 {
        assert_eq!(refused(&then(&header[..included])), (37, 1, 0));
    }
    assert_eq!(accepted(&then(&header)), TWO_LIST);
    assert_eq!(accepted(&then(&[header, header].concat())), TWO_LIST);
}

#[test]
fn another_ip_version_gives_37() {
    let mut header = packet(SECOND);
    for version in (0..16).filter(|version| *version != 4) {
        header[0] = (version << 4) | 5;
        assert_eq!(refused(&then(&header)), (37, 1, 0));
    }
}

/// Options need not be included: a header's length is looked at, and not what it takes.
#[test]
fn a_header_of_fewer_than_5_words_gives_37() {
    let mut header = packet(SECOND);
    for words in 0..16 {
        header[0] = (4 << 4) | words;
        let bytes = then(&header);
        match words {
            0..5 => assert_eq!(refused(&bytes), (37, 1, 0)),
            _ => assert_eq!(accepted(&bytes), TWO_LIST),
        }
    }
}

#[test]
fn a_stamp_that_goes_back_gives_38() {
    for form in FORMS {
        let one = if form.nanoseconds { 1_000 } else { 1 };
        let back = [[7, 5 * one], [7, 5 * one], [7, 4 * one]];
        assert_eq!(refused(&stamped(form, &back)), (38, 2, 0));
        let back = [[7, 5 * one], [6, 999_999 * one]];
        assert_eq!(refused(&stamped(form, &back)), (38, 1, 0));
        let same = [[7, 5 * one], [7, 5 * one], [7, 5 * one]];
        assert_eq!(accepted(&stamped(form, &same)).len(), 6);
    }
}

#[test]
fn nanoseconds_may_go_back_within_a_microsecond() {
    assert_eq!(accepted(&stamped(NANO, &[[7, 5_999], [7, 5_000]])).len(), 4);
    let back = stamped(NANO, &[[7, 5_000], [7, 4_999]]);
    assert_eq!(refused(&back), (38, 1, 0));
}

#[test]
fn a_part_of_a_million_carries() {
    let carried = stamped(MICRO, &[[0, 999_999], [0, 1_000_000], [1, 0]]);
    assert_eq!(accepted(&carried).len(), 6);
    let back = stamped(MICRO, &[[0, 1_000_001], [1, 0]]);
    assert_eq!(refused(&back), (38, 1, 0));
    let carried = stamped(NANO, &[[0, 1_000_000_999], [1, 0]]);
    assert_eq!(accepted(&carried).len(), 4);
    let back = stamped(NANO, &[[0, 1_000_001_000], [1, 0]]);
    assert_eq!(refused(&back), (38, 1, 0));
}

#[test]
fn the_largest_stamps_are_taken() {
    let largest = [u32::MAX, u32::MAX];
    for form in FORMS {
        let bytes = stamped(form, &[[0, 0], largest, largest]);
        assert_eq!(accepted(&bytes).len(), 6);
        let bytes = stamped(form, &[largest, [u32::MAX, 0]]);
        assert_eq!(refused(&bytes), (38, 1, 0));
    }
}

/// A capture with every fault is mended from the front.
#[test]
fn faults_of_the_file_header_come_in_their_order() {
    let mut bytes = vec![0; 23];
    let over = |bytes: &[u8], rate| {
        let capture = Capture {
            rate,
            ..even(bytes)
        };
        refused_capture(capture, &[])
    };
    assert_eq!(over(&bytes, 0), (30, 0, 0));
    assert_eq!(over(&bytes, 1), (31, 0, 0));
    bytes.extend([0; 16]);
    assert_eq!(over(&bytes, 1), (32, 0, 0));
    bytes[..4].copy_from_slice(&two()[..4]);
    assert_eq!(over(&bytes, 1), (33, 0, 0));
    bytes[4..8].copy_from_slice(&two()[4..8]);
    assert_eq!(over(&bytes, 1), (34, 0, 0));
    bytes[20..24].copy_from_slice(&two()[20..24]);
    assert_eq!(over(&bytes, 1), (35, 0, 0));
    // A header of zeros includes nothing.
    bytes.push(0);
    assert_eq!(over(&bytes, 1), (37, 0, 0));
}

#[test]
fn faults_of_one_record_come_in_their_order() {
    let faulty = |packet: &[u8]| {
        let first = MICRO.capture(&[(5, FIRST, 100)]);
        [first, MICRO.record([0, 4], 0, packet)].concat()
    };
    let bytes = faulty(&[0x64; 19]);
    assert_eq!(refused(&bytes[..bytes.len() - 1]), (36, 1, 0));
    assert_eq!(refused(&bytes), (37, 1, 0));
    assert_eq!(refused(&faulty(&[0x65; 20])), (37, 1, 0));
    assert_eq!(refused(&faulty(&[0x44; 20])), (37, 1, 0));
    assert_eq!(refused(&faulty(&[0x45; 20])), (38, 1, 0));
}

#[test]
fn an_earlier_record_comes_before_a_later_one() {
    let mut bytes = stamped(MICRO, &[[7, 5], [7, 4], [7, 3]]);
    assert_eq!(refused(&bytes), (38, 1, 0));
    bytes.pop();
    assert_eq!(refused(&bytes), (38, 1, 0));
    bytes[24 + 16] = 0x60;
    assert_eq!(refused(&bytes), (37, 0, 0));
}

/// Each table is refused too, as is each record's class.
#[test]
fn faults_of_a_capture_come_before_all_of_the_table() {
    let tables: [&[Row]; 3] = [&[], &[ROOT, (0, 1, 420)], &wide(257)];
    for rows in tables {
        let bytes = stamped(MICRO, &[[7, 5], [7, 4]]);
        assert_eq!(refused_capture(even(&bytes), rows), (38, 1, 0));
    }
}
