//! The program `capture`: what it prints, and what it says of arguments and files.

use std::fs;
use std::path::Path;

use second::capture::MOST_CAPTURE;

use crate::common::captures::{packet, Record, FIRST, FORMS, MICRO, SECOND};
use crate::common::files::{
    capture, event_text, failed, file, path, program, results, table_text, Printed,
};
use crate::common::{chain, HALVES, ROOT};

const EXAMPLE: &str = "\
answer,place,second,count
0,0,0,2
packet,record,class,length,arrived,sent,finished
0,0,10,100,0,0,80
1,1,20,1500,15,80,1280
";

const USAGE: &str = "cannot read: give a capture, a class table, three classes and a rate, \
                     capture CAPTURE TABLE FIRST SECOND THIRD RATE";

/// What is printed for these bytes, this table, and classes 10, 20 and 20.
fn over_bytes(test: &str, bytes: &[u8], table: &[u8], rate: &str) -> Printed {
    let bytes = file(&format!("{test}.pcap"), bytes);
    let table = file(&format!("{test}.table"), table);
    over_files(&bytes, &table, ["10", "20", "20", rate])
}

fn over_files(bytes: &Path, table: &Path, numbers: [&str; 4]) -> Printed {
    let [bytes, table] = [bytes, table].map(|path| path.as_os_str());
    capture(&[&[bytes, table], &numbers.map(|number| number.as_ref())[..]].concat())
}

/// What is printed for these records and two halves.
fn over(test: &str, records: &[Record], rate: &str) -> Printed {
    let table = table_text(&HALVES);
    over_bytes(test, &MICRO.capture(records), table.as_bytes(), rate)
}

#[test]
fn the_example_prints_exactly_this_in_every_form() {
    let records = [(7_999_990, FIRST, 100), (8_000_005, SECOND, 1_500)];
    for form in FORMS {
        let bytes = form.capture(&records);
        let table = table_text(&HALVES);
        let said = over_bytes("capture_example", &bytes, table.as_bytes(), "1250000");
        assert_eq!(said, results(EXAMPLE), "{form:?}");
    }
}

#[test]
fn no_record_prints_the_heading_alone() {
    let expected = "\
answer,place,second,count
0,0,0,0
packet,record,class,length,arrived,sent,finished
";
    assert_eq!(over("no_record", &[], "1"), results(expected));
}

/// The third record's packet is sent before the second's, and the last one finds the line idle.
#[test]
fn packets_are_printed_in_sending_order() {
    let records = [
        (5, FIRST, 1_500),
        (6, FIRST, 1_500),
        (7, SECOND, 100),
        (1_705, SECOND, 100),
        (9_005, FIRST, 1),
    ];
    let expected = "\
answer,place,second,count
0,0,0,5
packet,record,class,length,arrived,sent,finished
0,0,10,1500,0,0,1500
2,2,20,100,2,1500,1600
1,1,10,1500,1,1600,3100
5,3,20,100,1700,3100,3200
8,4,10,1,9000,9000,9001
";
    assert_eq!(
        over("sending_order", &records, "1000000"),
        results(expected)
    );
}

#[test]
fn the_largest_moments_are_printed() {
    let header = MICRO.header([2, 4], 101);
    let [first, last] =
        [[0, 0], [u32::MAX; 2]].map(|stamp| MICRO.record(stamp, 9_000, &packet(FIRST)));
    let bytes = [header, first, last].concat();
    let said = over_bytes(
        "largest_moments",
        &bytes,
        table_text(&HALVES).as_bytes(),
        "1",
    );
    let expected = "\
answer,place,second,count
0,0,0,2
packet,record,class,length,arrived,sent,finished
0,0,10,9000,0,0,9000000000
2,1,10,9000,4294971589967295,4294971589967295,4294980589967295
";
    assert_eq!(said, results(expected));
}

#[test]
fn leading_zeros_are_read() {
    let bytes = MICRO.capture(&[(0, FIRST, 100), (15, SECOND, 1_500)]);
    let bytes = file("capture_zeros.pcap", &bytes);
    let table = file("capture_zeros.table", table_text(&HALVES).as_bytes());
    let zeros = "0".repeat(1_000);
    let numbers = [10, 20, 20, 1_250_000].map(|number| format!("{zeros}{number}"));
    let said = over_files(&bytes, &table, numbers.each_ref().map(|n| &n[..]));
    assert_eq!(said, results(EXAMPLE));
}

#[test]
fn a_wrong_number_of_arguments_is_named() {
    for count in [0, 1, 5, 7] {
        assert_eq!(capture(&vec!["1"; count]), failed(USAGE));
    }
}

/// What is said of numbers in the last four places, with files that are missing.
fn said_of(numbers: [&str; 4]) -> Printed {
    let missing = path("missing");
    over_files(&missing, &missing, numbers)
}

#[test]
fn a_number_that_is_none_is_named() {
    let names = ["FIRST", "SECOND", "THIRD", "RATE"];
    for (at, name) in names.into_iter().enumerate() {
        let with = |wrong| {
            let mut numbers = ["1"; 4];
            numbers[at] = wrong;
            said_of(numbers)
        };
        for wrong in ["", "-1", "+1", " 1", "1 ", "1.5", "0x1", "x", "9999999999x"] {
            let said = format!("cannot read {name}: it is not a decimal number");
            assert_eq!(with(wrong), failed(&said));
        }
        for wrong in ["4294967296", "04294967296", "18446744073709551616"] {
            let said = format!("cannot read {name}: it is over 4294967295");
            assert_eq!(with(wrong), failed(&said));
        }
    }
}

#[test]
fn numbers_are_looked_at_from_left_to_right() {
    let wrong = ["x", "4294967296", "x", "4294967296"];
    let said = [
        "cannot read FIRST: it is not a decimal number",
        "cannot read SECOND: it is over 4294967295",
        "cannot read THIRD: it is not a decimal number",
        "cannot read RATE: it is over 4294967295",
    ];
    for (right, said) in said.into_iter().enumerate() {
        let mut numbers = wrong;
        numbers[..right].fill("4294967295");
        assert_eq!(said_of(numbers), failed(said));
    }
}

#[test]
fn files_that_cannot_be_read_are_named_after_the_numbers() {
    let [missing, other] = ["missing.pcap", "missing.table"].map(path);
    let bytes = file("header_alone.pcap", &MICRO.header([2, 4], 101));
    let said = |name: &Path| {
        let name = name.display();
        failed(&format!("cannot read {name}: there is no such file"))
    };
    assert_eq!(over_files(&missing, &other, ["1"; 4]), said(&missing));
    assert_eq!(over_files(&bytes, &other, ["1"; 4]), said(&other));
}

#[cfg(unix)]
#[test]
fn a_captures_name_is_printed_as_it_was_given() {
    use std::ffi::OsString;
    use std::os::unix::ffi::OsStringExt;

    let mut arguments = vec![OsString::from_vec(b"no\xffsuch".to_vec())];
    arguments.resize(6, OsString::from("1"));
    let response = second::capture::respond(&arguments);
    let expected = b"cannot read no\xffsuch: there is no such file\n";
    assert_eq!(response.error, expected);
}

/// One record includes all that the capture may have.
#[test]
fn a_capture_of_more_than_4194304_bytes_is_not_read() {
    let mut packet = packet(FIRST).to_vec();
    packet.resize(MOST_CAPTURE - 24 - 16, 0);
    let record = MICRO.record([0, 0], 100, &packet);
    let mut bytes = [MICRO.header([2, 4], 101), record].concat();
    assert_eq!(bytes.len(), 4_194_304);
    let table = table_text(&HALVES);
    let said = over_bytes("long_capture", &bytes, table.as_bytes(), "1000000");
    assert!(said.output.ends_with("\r\n0,0,10,100,0,0,100\r\n"));
    bytes.push(0);
    let name = path("long_capture.pcap");
    let said = over_bytes("long_capture", &bytes, b"x", "0");
    let expected = format!(
        "cannot read {}: it has more than 4194304 bytes; \
         cut its packets down, say with editcap -F pcap -s 64",
        name.display()
    );
    assert_eq!(said, failed(&expected));
    fs::remove_file(name).expect("the test's file can be taken away");
}

#[test]
fn a_fault_of_the_tables_text_is_answered_as_in_a_run() {
    let long = [&b"identifier,parent,share\r\n"[..], &[b'1'; 65_512]].concat();
    let texts: [&[u8]; 8] = [
        &long,
        b"class,length\r\n",
        b"identifier,parent,share\r\n1;0;0\r\n",
        b"identifier,parent,share\r\n01,0,0\r\n",
        b"identifier,parent,share\r\n1,0,4294967296\r\n",
        b"identifier,parent,share\r\n1,0\r\n",
        b"identifier,parent,share\n1,0,0\n",
        b"",
    ];
    for (number, text) in (40..).zip(texts) {
        let said = same_as_second("faulty_capture_table", text, "0");
        assert!(said.error.starts_with(&format!("refused {number} in ")));
    }
}

#[test]
fn a_table_is_refused_as_in_a_run() {
    let tables = [
        vec![],
        vec![ROOT, (0, 1, 420)],
        vec![ROOT, (10, 1, 420), (10, 1, 420)],
        vec![(1, 0, 840), (10, 1, 420)],
        vec![ROOT, (10, 2, 420)],
        vec![ROOT, (10, 1, 841)],
        chain(9),
        vec![ROOT, (10, 1, 840), (20, 1, 1)],
        vec![ROOT, (65_536, 1, 420)],
    ];
    for rows in tables {
        let said = same_as_second("refused_capture", table_text(&rows).as_bytes(), "1");
        assert!(said.error.starts_with("refused "));
    }
}

/// A capture with one record and the run without events print the same.
fn same_as_second(test: &str, table: &[u8], rate: &str) -> Printed {
    let said = over_bytes(test, &MICRO.capture(&[(0, FIRST, 1)]), table, rate);
    let table = file(&format!("{test}.table"), table);
    let events = file(&format!("{test}.events"), event_text(&[]).as_bytes());
    assert_eq!(said, program(&[table, events]));
    said
}
