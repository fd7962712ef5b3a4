//! Each sentence on a refused capture, and that only two lines go to standard output with it.

use std::ffi::OsStr;

use crate::common::captures::{packet, Record, FIRST, MICRO, NANO, SECOND, THIRD};
use crate::common::files::{capture, file, named, refused, table_text};
use crate::common::{Row, HALVES, TWO_LEVELS};

/// Runs the program over files with these bytes and rows, and compares all it prints. The numbers
/// are those of the three classes and the rate; the sentence has CAPTURE or TABLE for a name.
fn says_over(
    test: &str,
    bytes: &[u8],
    rows: &[Row],
    numbers: [u32; 4],
    answer: &str,
    sentence: &str,
) {
    let bytes = file(&format!("{test}.pcap"), bytes);
    let table = file(&format!("{test}.table"), table_text(rows).as_bytes());
    let numbers = numbers.map(|number| number.to_string());
    let files = [bytes.as_os_str(), table.as_os_str()];
    let numbers = numbers.each_ref().map(OsStr::new);
    let expected = refused(&format!("{answer},0,0"), &named(test, sentence));
    assert_eq!(capture(&[&files[..], &numbers].concat()), expected);
}

/// The same for two halves, classes 10, 20 and 20, and a microsecond a byte.
fn says(test: &str, bytes: &[u8], answer: &str, sentence: &str) {
    says_over(
        test,
        bytes,
        &HALVES,
        [10, 20, 20, 1_000_000],
        answer,
        sentence,
    );
}

/// A record of 20 bytes, then one with this packet.
fn then(packet: &[u8]) -> Vec<u8> {
    let first = MICRO.capture(&[(5, FIRST, 100)]);
    [first, MICRO.record([0, 5], 1_500, packet)].concat()
}

#[test]
fn sentence_30() {
    let said = "refused 30: the rate is 0; \
                give the bytes that the line carries in a second, from 1 to 4294967295.";
    says_over("capture_30", b"", &HALVES, [10, 20, 20, 0], "30,0", said);
}

#[test]
fn sentence_31_names_the_bytes_that_are_there() {
    let said = "refused 31 in CAPTURE: of the 24 bytes of a file header the capture has 23; \
                give a whole capture.";
    says("capture_31", &[0; 23], "31,0", said);
}

#[test]
fn sentence_32_names_the_bytes_found() {
    let mut bytes = MICRO.header([2, 4], 101);
    bytes[..4].copy_from_slice(&[10, 13, 0, 255]);
    let said = "refused 32 in CAPTURE: the capture begins with the bytes 10, 13, 0, 255 \
                and not with a magic number of the classic layout; \
                save it as pcap, say with editcap -F pcap.";
    says("capture_32", &bytes, "32,0", said);
}

#[test]
fn sentence_33_names_the_version() {
    let said = "refused 33 in CAPTURE: the capture is of version 65535.3 (byte 4); \
                save it as version 2.4, say with editcap -F pcap.";
    says("capture_33", &MICRO.header([65_535, 3], 101), "33,0", said);
}

#[test]
fn sentence_34_names_the_link_type() {
    let said = "refused 34 in CAPTURE: the capture has link type 4294967295 (byte 20); \
                give one of link type 101, raw IP packets.";
    says("capture_34", &MICRO.header([2, 4], u32::MAX), "34,0", said);
}

#[test]
fn sentence_35_names_the_bytes_that_are_there() {
    let bytes = then(&[]);
    let said = "refused 35 in CAPTURE: record 1 (byte 60) has 15 of the 16 bytes \
                of a record's header; \
                the capture is cut off there: give it whole, or without that record.";
    says("capture_35", &bytes[..bytes.len() - 1], "35,1", said);
}

#[test]
fn sentence_36_names_what_is_included_and_what_is_there() {
    let bytes = then(&[0; 50]);
    let said = "refused 36 in CAPTURE: record 1 (byte 60) includes 50 bytes of a packet, \
                of which 49 are there; \
                the capture is cut off there: give it whole, or without that record.";
    says("capture_36", &bytes[..bytes.len() - 1], "36,1", said);
}

#[test]
fn sentence_37_names_the_bytes_included() {
    let said = "refused 37 in CAPTURE: record 1 (byte 60) includes 19 of the 20 bytes \
                of an IPv4 header; \
                leave it out, or capture more of each packet.";
    says("capture_37_short", &then(&[0x64; 19]), "37,1", said);
}

#[test]
fn sentence_37_names_the_ip_version() {
    let said = "refused 37 in CAPTURE: record 1 (byte 60) has a packet of IP version 6; \
                leave it out, since packets are IPv4.";
    says("capture_37_version", &then(&[0x64; 20]), "37,1", said);
}

#[test]
fn sentence_37_names_the_words_of_the_header() {
    let said = "refused 37 in CAPTURE: record 1 (byte 60) has an IPv4 header of 4 words, \
                where 5 are the least; leave it out.";
    says("capture_37_words", &then(&[0x44; 20]), "37,1", said);
}

/// 5,999 nanoseconds are 5 microseconds.
#[test]
fn sentence_38_names_how_far_the_stamp_goes_back() {
    let said = |microseconds: u64| {
        format!(
            "refused 38 in CAPTURE: record 1 (byte 60) is stamped {microseconds} microseconds \
             before the record above it; put records in the order of their stamps, say with reordercap."
        )
    };
    let bytes = MICRO.capture(&[(4_000_000_000_000, FIRST, 1), (1, FIRST, 1)]);
    says("capture_38", &bytes, "38,1", &said(3_999_999_999_999));
    let header = NANO.header([2, 4], 101);
    let [first, second] = [5_999, 4_000].map(|part| NANO.record([0, part], 1, &packet(FIRST)));
    let bytes = [header, first, second].concat();
    says("capture_38_nano", &bytes, "38,1", &said(1));
}

#[test]
fn sentence_1_names_the_table() {
    let said = "refused 1 in TABLE: the table has 0 rows; give it 2 to 256.";
    let bytes = MICRO.header([2, 4], 101);
    says_over("capture_1", &bytes, &[], [10, 20, 20, 1], "1,0", said);
}

#[test]
fn sentence_2_names_the_number_of_records() {
    let bytes = MICRO.capture(&vec![(0, FIRST, 1); 32_769]);
    let said = "refused 2 in CAPTURE: the capture has 32769 records; give it at most 32768.";
    says("capture_2", &bytes, "2,0", said);
}

/// Two packets, one finished before the third record, which has this code point and length. It is
/// at byte 24 + 2 * 36.
fn third(code_point: u8, length: u32) -> Vec<u8> {
    let before: [Record; 2] = [(0, FIRST, 10), (5, FIRST, 10)];
    MICRO.capture(&[&before[..], &[(10, code_point, length)]].concat())
}

#[test]
fn sentence_11_names_the_class_and_the_code_point() {
    let said = "refused 11 in CAPTURE: record 2 (byte 96), event 3 of the list, is for class 77, \
                which no row has; name a class of the table for code point 47.";
    let numbers = [10, 20, 77, 1_000_000];
    says_over("capture_11", &third(47, 0), &HALVES, numbers, "11,3", said);
}

#[test]
fn sentence_12_for_the_root() {
    let said = "refused 12 in CAPTURE: record 2 (byte 96), event 3 of the list, is for class 1, \
                row 0 (line 2), which is the line itself; \
                name a class with no class below it for code point 0.";
    let numbers = [10, 20, 1, 1_000_000];
    let bytes = third(THIRD, 0);
    says_over("capture_12", &bytes, &HALVES, numbers, "12,3", said);
}

#[test]
fn sentence_12_for_an_inner_class() {
    let said = "refused 12 in CAPTURE: record 2 (byte 96), event 3 of the list, is for class 2, \
                row 1 (line 3), which has classes below it; \
                name a class with no class below it for code point 8.";
    let numbers = [3, 2, 3, 1_000_000];
    let bytes = third(SECOND, 9_001);
    says_over(
        "capture_12_inner",
        &bytes,
        &TWO_LEVELS,
        numbers,
        "12,3",
        said,
    );
}

#[test]
fn sentence_13_for_class_0() {
    let said = "refused 13 in CAPTURE: record 2 (byte 96), event 3 of the list, is for class 0, \
                which is no class; name a class of the table for code point 39.";
    let numbers = [10, 0, 20, 1_000_000];
    for length in [0, 1, 9_001] {
        let test = format!("capture_13_class_{length}");
        says_over(&test, &third(39, length), &HALVES, numbers, "13,3", said);
    }
}

#[test]
fn sentence_13_for_a_length() {
    for length in [0, 9_001, u32::MAX] {
        let said = format!(
            "refused 13 in CAPTURE: record 2 (byte 96), event 3 of the list, for class 20, \
             has original length {length}; a packet has 1 to 9000 bytes."
        );
        let test = format!("capture_13_{length}");
        says(&test, &third(SECOND, length), "13,3", &said);
    }
}
