//! The program's text form: what it reads, what it prints and what it cannot read.

use std::path::{Path, PathBuf};

use crate::common::files::{
    event_text, failed, file, named, over_bytes, over_rows, path, program, refused, results,
    table_text, with_cr, Printed,
};
use crate::common::{HALVES, P1_EVENTS};

const P1_TEXT: &str = "\
answer,place,second,count
0,0,0,3
order
0
1
2
identifier,bytes,start,finish,virtual,held,lag
1,300,0,0,252000,0,0
10,200,168000,336000,0,0,0
20,100,84000,252000,0,0,0
";

const USAGE: &str = "cannot read: give a class table and an event list, second TABLE EVENTS";

/// Runs events that cannot be read, with P1's table; gives what follows the file's name.
fn event_fault(test: &str, events: &[u8]) -> String {
    let table = file(&format!("{test}.table"), table_text(&HALVES).as_bytes());
    let events = file(&format!("{test}.events"), events);
    fault_of(&events, &[&table, &events])
}

fn fault_of(faulty: &Path, arguments: &[&PathBuf]) -> String {
    let said = program(arguments);
    assert_eq!((&said.output[..], said.status), ("", Some(2)));
    let before = format!("cannot read {}", faulty.display());
    let rest = said.error.strip_prefix(&before);
    rest.expect("the sentence names the file").to_string()
}

#[test]
fn p1_prints_exactly_this() {
    assert_eq!(over_rows("p1_text", &HALVES, &P1_EVENTS), results(P1_TEXT));
}

#[test]
fn p2_prints_its_negative_lag() {
    let said = over_rows("p2_text", &HALVES, &P1_EVENTS[..4]);
    let expected = "\
answer,place,second,count
0,0,0,2
order
0
1
identifier,bytes,start,finish,virtual,held,lag
1,100,0,0,168000,2,0
10,100,168000,336000,0,1,-42000
20,0,84000,252000,0,1,42000
";
    assert_eq!(said, results(expected));
}

#[test]
fn no_event_prints_an_empty_order() {
    let said = over_rows("p6_text", &HALVES, &[]);
    let expected = "\
answer,place,second,count
0,0,0,0
order
identifier,bytes,start,finish,virtual,held,lag
1,0,0,0,0,0,0
10,0,0,0,0,0,0
20,0,0,0,0,0,0
";
    assert_eq!(said, results(expected));
}

/// P1 with its events in these bytes.
fn over_events(test: &str, events: &[u8]) -> Printed {
    over_bytes(test, table_text(&HALVES).as_bytes(), events)
}

#[test]
fn in_events_cr_lf_is_read_like_lf() {
    let events = with_cr(&event_text(&P1_EVENTS));
    assert_eq!(over_events("cr_lf", events.as_bytes()), results(P1_TEXT));
}

#[test]
fn in_events_line_ends_may_be_mixed() {
    let events = event_text(&P1_EVENTS).replacen('\n', "\r\n", 2);
    assert_eq!(over_events("mixed", events.as_bytes()), results(P1_TEXT));
}

#[test]
fn in_events_leading_zeros_are_read() {
    let zeros = "0".repeat(100);
    let events = event_text(&P1_EVENTS).replace(",100", &format!(",{zeros}100"));
    assert_eq!(over_events("zeros", events.as_bytes()), results(P1_TEXT));
}

#[test]
fn missing_events_are_named_after_the_table() {
    let table = file("alone.table", table_text(&HALVES).as_bytes());
    let [missing, other] = ["missing.events", "missing.table"].map(path);
    let none = ": there is no such file\n";
    assert_eq!(fault_of(&missing, &[&table, &missing]), none);
    assert_eq!(fault_of(&other, &[&other, &missing]), none);
}

#[test]
fn a_fault_of_the_table_comes_before_all_of_the_events() {
    let table = file("both.table", b"x\n");
    let sentence = "refused 41 in TABLE: line 1 has \"x\" at byte 1, where the heading \
                    identifier,parent,share has not; write the heading as it stands here.";
    let expected = refused("41,1,0,0", &named("both", sentence));
    for events in [file("both.events", b"x\n"), path("missing.events")] {
        assert_eq!(program(&[&table, &events]), expected);
    }
}

#[test]
fn faulty_events_are_named_before_a_refusal_of_the_table() {
    let table = file("refusable.table", b"identifier,parent,share\r\n");
    let events = file("refusable.events", b"x\n");
    let said = fault_of(&events, &[&table, &events]);
    assert_eq!(said, ", line 1: the heading must be class,length\n");
}

#[test]
fn a_wrong_heading_is_named() {
    let heading = ", line 1: the heading must be class,length\n";
    let wrong: [&[u8]; 4] = [
        b"identifier,parent,share\n",
        b"\n10,1\n",
        b"Class,length\n",
        b"class,length\r\r\n",
    ];
    for (index, events) in wrong.into_iter().enumerate() {
        assert_eq!(event_fault(&format!("heading_{index}"), events), heading);
    }
}

#[test]
fn an_empty_file_lacks_its_heading() {
    let heading = ", line 1: the heading must be class,length\n";
    assert_eq!(event_fault("empty_events", b""), heading);
}

#[test]
fn a_line_without_end_is_named() {
    let cut = event_fault("cut_number", b"class,length\n10,100\n20,10");
    assert_eq!(cut, ", line 3: the line has no end\n");
    let cut = event_fault("cut_heading", b"class,length");
    assert_eq!(cut, ", line 1: the line has no end\n");
    let cut = event_fault("cut_after_cr", b"class,length\n10,100\r");
    assert_eq!(cut, ", line 2: the line has no end\n");
}

#[test]
fn a_missing_end_comes_before_other_faults_of_its_line_only() {
    let said = event_fault("end_first", b"class,length\nx");
    assert_eq!(said, ", line 2: the line has no end\n");
    let said = event_fault("line_first", b"class,length\nx\n10,1");
    assert_eq!(said, ", line 2: 2 numbers are wanted\n");
}

#[test]
fn a_wrong_number_of_fields_is_named() {
    let wrong: [&[u8]; 4] = [b"10", b"10,1,", b"", b"x,1,1"];
    for (index, line) in wrong.into_iter().enumerate() {
        let events = [b"class,length\n10,1\n", line, b"\n"].concat();
        let said = event_fault(&format!("fields_{index}"), &events);
        assert_eq!(said, ", line 3: 2 numbers are wanted\n");
    }
}

#[test]
fn a_field_that_is_not_a_decimal_number_is_named() {
    let fields: [&[u8]; 9] = [
        b"",
        b"+1",
        b"-1",
        b" 1",
        b"1 ",
        b"1x",
        b"1\r",
        b"\xff\xfe",
        b"0x1",
    ];
    for (index, field) in fields.iter().enumerate() {
        let events = [b"class,length\n", *field, b",10\n"].concat();
        let said = event_fault(&format!("not_number_{index}"), &events);
        assert_eq!(said, ", line 2: field 1 is not a decimal number\n");
    }
}

#[test]
fn the_last_field_is_looked_at_too() {
    let said = event_fault("last_field", b"class,length\n10,1\r\r\n");
    assert_eq!(said, ", line 2: field 2 is not a decimal number\n");
}

#[test]
fn a_field_over_32_bits_is_named() {
    let over = ", line 2: field 2 is over 4294967295\n";
    let events = b"class,length\n10,4294967296\n";
    assert_eq!(event_fault("over_by_one", events), over);
    let events = b"class,length\n10,99999999999999999999999999999999999999999\n";
    assert_eq!(event_fault("over_by_far", events), over);
}

#[test]
fn the_largest_number_is_read() {
    let events = b"class,length\n4294967295,4294967295\n";
    let said = over_events("largest", events);
    assert_eq!(said.output, "answer,place,second,count\r\n11,0,0,0\r\n");
}

#[test]
fn fields_are_looked_at_from_left_to_right() {
    let said = event_fault("left_first_1", b"class,length\n4294967296,x\n");
    assert_eq!(said, ", line 2: field 1 is over 4294967295\n");
    let said = event_fault("left_first_2", b"class,length\nx,4294967296\n");
    assert_eq!(said, ", line 2: field 1 is not a decimal number\n");
    let said = event_fault("whole_field", b"class,length\n4294967296x,1\n");
    assert_eq!(said, ", line 2: field 1 is not a decimal number\n");
}

#[test]
fn a_wrong_number_of_arguments_is_named() {
    assert_eq!(program::<&str>(&[]), failed(USAGE));
    assert_eq!(program(&["one"]), failed(USAGE));
    assert_eq!(program(&["one", "two", "three"]), failed(USAGE));
}

#[cfg(unix)]
#[test]
fn a_files_name_is_printed_as_it_was_given() {
    use std::ffi::OsString;
    use std::fs;
    use std::os::unix::ffi::OsStringExt;

    let name = |end: &[u8]| OsString::from_vec(end.to_vec());
    let missing = second::program::respond(&[name(b"no\xffsuch"), OsString::new()]);
    let expected = b"cannot read no\xffsuch: there is no such file\n";
    assert_eq!(missing.error, expected);
    let table = path("").join(name(b"odd\xffname"));
    fs::write(&table, b"").expect("the test's file can be written");
    let empty = second::program::respond(&[table.into_os_string(), OsString::new()]);
    let expected = b"odd\xffname: the text is empty; begin it with";
    assert!(empty
        .error
        .windows(expected.len())
        .any(|part| part == expected));
}
