//! The program `promise`: its sheet, and what it says of arguments and tables.

use std::path::PathBuf;

use crate::common::files::{
    event_text, failed, file, printed, program, promise, table_text, Printed,
};
use crate::common::{chain, wide, Row, HALVES, ROOT, TWO_LEVELS};

/// The table of docs/FAIRNESS.md.
const PLATFORMS: [Row; 7] = [
    ROOT,
    (100, 1, 560),
    (200, 1, 280),
    (110, 100, 630),
    (120, 100, 210),
    (210, 200, 420),
    (220, 200, 420),
];

const PLATFORMS_SHEET: &str = "\
own bytes 6000, largest packet 1500, three packets 4500, packets finished 65536, ticks 65538

class 110 (row 3)
  own bytes: 6000
  class 110: (6000 + 4500) * 840 / 630 + 65538 / 840 = 1970923/140
  class 100: (1970923/140 + 4500) * 840 / 560 + 65538 / 840 = 1564923/56
  the line finishes at most 1564923/56 bytes, rounded up 27946
  without ticks, since each share above divides 705600: at most 27750 bytes

class 120 (row 4)
  own bytes: 6000
  class 120: (6000 + 4500) * 840 / 210 + 65538 / 840 = 5890923/140
  class 100: (5890923/140 + 4500) * 840 / 560 + 65538 / 840 = 3916923/56
  the line finishes at most 3916923/56 bytes, rounded up 69946
  without ticks, since each share above divides 705600: at most 69750 bytes

class 210 (row 5)
  own bytes: 6000
  class 210: (6000 + 4500) * 840 / 420 + 65538 / 840 = 2950923/140
  class 200: (2950923/140 + 4500) * 840 / 280 + 65538 / 840 = 2688423/35
  the line finishes at most 2688423/35 bytes, rounded up 76813
  without ticks, since each share above divides 705600: at most 76500 bytes

class 220 (row 6)
  own bytes: 6000
  class 220: (6000 + 4500) * 840 / 420 + 65538 / 840 = 2950923/140
  class 200: (2950923/140 + 4500) * 840 / 280 + 65538 / 840 = 2688423/35
  the line finishes at most 2688423/35 bytes, rounded up 76813
  without ticks, since each share above divides 705600: at most 76500 bytes
";

/// 42 ticks are 1/20 of a byte, and 840 over 756 is 10/9.
/// Class 3: 10500 * 2 + 1/20 = 21000 + 1/20.
/// Class 2: 21000 + 1/20 + 4500 is 510001/20, times 10/9 is 510001/18, and with 1/20
/// (5100010 + 9) / 180, which is 28333 and 79/180.
/// Class 4: 10500 * 10 + 1/20 = 105000 + 1/20.
const NINETY_SHEET: &str = "\
own bytes 6000, largest packet 1500, three packets 4500, packets finished 40, ticks 42

class 3 (row 2)
  own bytes: 6000
  class 3: (6000 + 4500) * 840 / 420 + 42 / 840 = 420001/20
  class 2: (420001/20 + 4500) * 840 / 756 + 42 / 840 = 5100019/180
  the line finishes at most 5100019/180 bytes, rounded up 28334

class 4 (row 3)
  own bytes: 6000
  class 4: (6000 + 4500) * 840 / 84 + 42 / 840 = 2100001/20
  the line finishes at most 2100001/20 bytes, rounded up 105001
  without ticks, since each share above divides 705600: at most 105000 bytes
";

const FRACTION_SHEET: &str = "\
own bytes 1, largest packet 1, three packets 3, packets finished 65536, ticks 65538

class 3 (row 2)
  own bytes: 1
  class 3: (1 + 3) * 840 / 49 + 65538 / 840 = 20523/140
  class 2: (20523/140 + 3) * 840 / 420 + 65538 / 840 = 52809/140
  the line finishes at most 52809/140 bytes, rounded up 378
  without ticks, since each share above divides 705600: at most 1002/7 bytes, rounded up 144
";

const OUTGROWN_SHEET: &str = "\
own bytes 4294967295, largest packet 9000, three packets 27000, packets finished 65536, ticks 65538

class 4 (row 4)
  own bytes: 4294967295
  class 4: (4294967295 + 27000) * 840 / 1 + 65538 / 840 = 505091329102923/140
  class 3: (505091329102923/140 + 27000) * 840 / 1 + 65538 / 840 = 424276719621666243/140
  class 2: (424276719621666243/140 + 27000) * 840 / 1 + 65538 / 840 = outgrown
  the line: no number, since the working outgrows 64 bits

class 6 (row 6)
  own bytes: 4294967295
  class 6: (4294967295 + 27000) * 840 / 840 + 65538 / 840 = 601299212223/140
  class 5: (601299212223/140 + 27000) * 840 / 800 + 65538 / 840 = 12627363055143/2800
  the line finishes at most 12627363055143/2800 bytes, rounded up 4509772520
  without ticks, since each share above divides 705600: at most 18039089439/4 bytes, rounded up 4509772360
";

/// Class 5 has 756 on its way up and class 6 has not. Times 140, the last figure of class 6 would
/// be over 2^64.
const OUTGROWN_BY_TICKS_SHEET: &str = "\
own bytes 4294967295, largest packet 9000, three packets 27000, packets finished 65536, ticks 65538

class 5 (row 4)
  own bytes: 4294967295
  class 5: (4294967295 + 27000) * 840 / 756 + 65538 / 840 = 2004330703769/420
  class 4: (2004330703769/420 + 27000) * 840 / 1 + 65538 / 840 = 561215772266243/140
  class 3: (561215772266243/140 + 27000) * 840 / 1 + 65538 / 840 = 471421251878855043/140
  class 2: (471421251878855043/140 + 27000) * 840 / 1 + 65538 / 840 = outgrown
  the line: no number, since the working outgrows 64 bits

class 6 (row 5)
  own bytes: 4294967295
  class 6: (4294967295 + 27000) * 840 / 1 + 65538 / 840 = 505091329102923/140
  class 3: (505091329102923/140 + 27000) * 840 / 1 + 65538 / 840 = 424276719621666243/140
  class 2: (424276719621666243/140 + 27000) * 840 / 1 + 65538 / 840 = outgrown
  the line: no number, since the working outgrows 64 bits
  without ticks, since each share above divides 705600: at most 2545660317697560000 bytes
";

const NOT_DIGITS: [&str; 9] = [
    "",
    "-1",
    "+1",
    " 1",
    "1 ",
    "1.5",
    "0x10",
    "x",
    "9999999999x",
];

/// What is printed for these rows, then LARGEST and perhaps OWN and PACKETS.
fn sheet(test: &str, rows: &[Row], arguments: &[&str]) -> Printed {
    over_bytes(test, table_text(rows).as_bytes(), arguments)
}

fn over_bytes(test: &str, table: &[u8], arguments: &[&str]) -> Printed {
    let mut all = vec![file(&format!("{test}.table"), table)];
    all.extend(arguments.iter().map(PathBuf::from));
    promise(&all)
}

/// The sentence on these arguments, with a table that is accepted.
fn says(test: &str, arguments: &[&str], sentence: &str) {
    let said = sheet(test, &HALVES, arguments);
    assert_eq!(said, failed(sentence), "{arguments:?}");
}

#[test]
fn the_platforms_sheet_is_the_one_worked_by_hand() {
    let said = sheet("platforms", &PLATFORMS, &["1500", "6000"]);
    assert_eq!(said, printed(PLATFORMS_SHEET));
}

#[test]
fn the_sheet_with_90_per_cent_is_the_one_worked_by_hand() {
    let rows = [ROOT, (2, 1, 756), (3, 2, 420), (4, 1, 84)];
    let said = sheet("ninety", &rows, &["1500", "6000", "40"]);
    assert_eq!(said, printed(NINETY_SHEET));
}

#[test]
fn a_fraction_is_carried_on_and_rounded_up_at_the_end() {
    let rows = [ROOT, (2, 1, 420), (3, 2, 49)];
    let said = sheet("fraction", &rows, &["1"]);
    assert_eq!(said, printed(FRACTION_SHEET));
}

#[test]
fn a_figure_that_outgrows_64_bits_ends_its_class_only() {
    let rows = [
        ROOT,
        (10, 1, 1),
        (2, 10, 1),
        (3, 2, 1),
        (4, 3, 1),
        (5, 1, 800),
        (6, 5, 840),
    ];
    let said = sheet("outgrown", &rows, &["9000", "4294967295"]);
    assert_eq!(said, printed(OUTGROWN_SHEET));
}

#[test]
fn a_figure_that_outgrows_64_bits_with_ticks_alone_still_has_one_without() {
    let rows = [
        ROOT,
        (2, 1, 1),
        (3, 2, 1),
        (4, 3, 1),
        (5, 4, 756),
        (6, 3, 1),
    ];
    let said = sheet("outgrown_by_ticks", &rows, &["9000", "4294967295"]);
    assert_eq!(said, printed(OUTGROWN_BY_TICKS_SHEET));
}

/// The line for what holds without ticks asks for each share of the way up, not for others.
#[test]
fn each_share_of_the_way_up_must_divide_705600() {
    let with_line = |rows: &[Row]| {
        let said = sheet("way_up", rows, &["1500"]).output;
        said.matches("\n  without ticks, ").count()
    };
    assert_eq!(with_line(&[ROOT, (2, 1, 400), (3, 2, 441), (4, 1, 11)]), 1);
    assert_eq!(with_line(&[ROOT, (2, 1, 11), (3, 2, 420), (4, 2, 420)]), 0);
    assert_eq!(with_line(&[ROOT, (2, 1, 420), (3, 2, 11), (4, 2, 420)]), 1);
}

#[test]
fn own_bytes_left_out_are_one_largest_packet() {
    let alone = sheet("alone", &PLATFORMS, &["1500"]);
    assert_eq!(alone, sheet("twice", &PLATFORMS, &["1500", "1500"]));
    assert!(alone.output.starts_with("own bytes 1500, largest"));
}

#[test]
fn packets_left_out_are_as_many_as_a_list_has_events() {
    let alone = sheet("no_packets", &PLATFORMS, &["1500", "6000"]);
    let all = sheet("all_packets", &PLATFORMS, &["1500", "6000", "65536"]);
    assert_eq!(alone, all);
}

#[test]
fn leading_zeros_are_read() {
    let zeros = "0".repeat(1000);
    let numbers = [1500, 6000, 65536].map(|number| format!("{zeros}{number}"));
    let said = sheet(
        "zeros_sheet",
        &PLATFORMS,
        &numbers.each_ref().map(|n| &n[..]),
    );
    assert_eq!(said, printed(PLATFORMS_SHEET));
}

#[test]
fn both_ends_of_largest_own_and_packets_are_read() {
    let ends = [
        (
            ["1", "0", "0"],
            "three packets 3, packets finished 0, ticks 2",
        ),
        (
            ["9000", "4294967295", "4294967295"],
            "three packets 27000, packets finished 4294967295, ticks 4294967297",
        ),
    ];
    for (arguments, rest) in ends {
        let said = sheet("ends", &HALVES, &arguments).output;
        let [largest, own, _] = arguments;
        let first = format!("own bytes {own}, largest packet {largest}, {rest}\n\n");
        assert!(said.starts_with(&first), "{said}");
    }
}

/// A class with half of the line: one packet and three more, times two. 840 ticks are a byte.
#[test]
fn a_largest_packet_of_each_length_is_worked() {
    for (largest, line) in [(1, 8), (2048, 16384), (2049, 16392), (9000, 72000)] {
        let number = largest.to_string();
        let said = sheet("each_largest", &HALVES, &[&number, &number, "838"]).output;
        let last = format!(
            "  the line finishes at most {} bytes\n  without ticks, since each share above \
             divides 705600: at most {line} bytes\n",
            line + 1
        );
        assert!(said.ends_with(&last), "{said}");
    }
}

#[test]
fn a_wrong_number_of_arguments_is_named() {
    let usage = "cannot read: give a class table and the largest packet, \
                 promise TABLE LARGEST [OWN [PACKETS]]";
    assert_eq!(promise::<&str>(&[]), failed(usage));
    assert_eq!(promise(&["one"]), failed(usage));
    assert_eq!(promise(&["one", "2", "3", "4", "5"]), failed(usage));
}

#[test]
fn a_largest_packet_that_is_not_digits_alone_is_named() {
    let sentence = "cannot read LARGEST: it is not a decimal number";
    for largest in NOT_DIGITS {
        says("largest_digits", &[largest], sentence);
    }
}

#[test]
fn a_largest_packet_that_no_packet_has_is_named() {
    let long = "9".repeat(1000);
    let sentence = "cannot read LARGEST: a packet has 1 to 9000 bytes";
    let wrong = [
        "0",
        "000",
        "9001",
        "09001",
        "65536",
        "74536",
        "4294967295",
        "4294967296",
        &long,
    ];
    for largest in wrong {
        says("largest_range", &[largest], sentence);
    }
}

#[test]
fn own_bytes_and_packets_that_are_not_digits_alone_are_named() {
    let own = "cannot read OWN: it is not a decimal number";
    let packets = "cannot read PACKETS: it is not a decimal number";
    for wrong in NOT_DIGITS {
        says("own_digits", &["1500", wrong], own);
        says("own_digits_first", &["1500", wrong, "40"], own);
        says("packets_digits", &["1500", "6000", wrong], packets);
    }
}

#[test]
fn own_bytes_and_packets_over_32_bits_are_named() {
    let long = "9".repeat(1000);
    let own = "cannot read OWN: it is over 4294967295";
    let packets = "cannot read PACKETS: it is over 4294967295";
    for wrong in ["4294967296", "04294967296", "18446744073709551616", &long] {
        says("own_range", &["1500", wrong], own);
        says("packets_range", &["1500", "6000", wrong], packets);
    }
}

#[test]
fn arguments_are_looked_at_from_left_to_right_and_before_the_table() {
    let said = |numbers: [&str; 3]| promise(&[&["no such table"], &numbers[..]].concat());
    let largest = "cannot read LARGEST: it is not a decimal number";
    assert_eq!(said(["x", "x", "x"]), failed(largest));
    let range = "cannot read LARGEST: a packet has 1 to 9000 bytes";
    assert_eq!(said(["0", "x", "x"]), failed(range));
    let own = "cannot read OWN: it is not a decimal number";
    assert_eq!(said(["1", "x", "4294967296"]), failed(own));
    let packets = "cannot read PACKETS: it is over 4294967295";
    assert_eq!(said(["1", "1", "4294967296"]), failed(packets));
    let table = "cannot read no such table: there is no such file";
    assert_eq!(said(["1", "1", "1"]), failed(table));
}

#[test]
fn a_table_is_refused_as_in_a_run_without_events() {
    let tables = [
        Vec::new(),
        vec![ROOT],
        wide(257),
        vec![ROOT, (0, 1, 420)],
        vec![ROOT, (10, 1, 420), (10, 1, 420)],
        vec![(1, 0, 840), (10, 1, 420)],
        vec![ROOT, (10, 2, 420)],
        vec![ROOT, (10, 1, 0)],
        vec![ROOT, (10, 1, 841)],
        chain(9),
        vec![ROOT, (10, 1, 840), (20, 1, 1)],
    ];
    for rows in tables {
        same_as_second("refused_sheet", table_text(&rows).as_bytes());
    }
}

#[test]
fn a_fault_of_a_tables_text_is_answered_as_in_a_run() {
    let long = [&b"identifier,parent,share\r\n"[..], &[b'1'; 65_512]].concat();
    let texts: [&[u8]; 8] = [
        &long,
        b"class,length\r\n",
        b"identifier,parent,share\r\n1;0;0\r\n",
        b"identifier,parent,share\r\n01,0,0\r\n",
        b"identifier,parent,share\r\n1,0,4294967296\r\n",
        b"identifier,parent,share\r\n1,0\r\n",
        b"identifier,parent,share\n1,0,0\n",
        b"",
    ];
    for (number, text) in (40..).zip(texts) {
        let said = same_as_second("faulty_sheet", text);
        assert!(said.error.starts_with(&format!("refused {number} in ")));
    }
}

#[test]
fn arguments_are_looked_at_before_a_fault_of_the_table() {
    let said = over_bytes("faulty_table", b"x", &["1500", "x"]);
    let own = "cannot read OWN: it is not a decimal number";
    assert_eq!(said, failed(own));
}

/// The sheet's program and the run without events print the same, and no sheet.
fn same_as_second(test: &str, table: &[u8]) -> Printed {
    let said = over_bytes(test, table, &["1500"]);
    let table = file(&format!("{test}.table"), table);
    let events = file(&format!("{test}.events"), event_text(&[]).as_bytes());
    assert_eq!(said, program(&[table, events]));
    assert!(!said.output.contains("own bytes") && !said.output.contains("order"));
    said
}

#[test]
fn only_sending_classes_have_a_part() {
    let said = sheet("sending", &TWO_LEVELS, &["1500"]).output;
    let parts: Vec<&str> = said.lines().filter(|line| line.contains("(row")).collect();
    assert_eq!(parts, ["class 3 (row 2)"]);
}
