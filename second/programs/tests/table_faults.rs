//! Faults of a table's text, 40 to 47: each byte at each kind of place, and what comes before what.

use crate::common::files::table_text;
use crate::common::texts::{accepted_text, below, refused_read, refused_text, HEADING};
use crate::common::{chain, wide, HALVES, ROOT};

/// The rows before and after the line that a fault is put into.
const BEFORE: &str = "1,0,0\r\n";
const AFTER: &str = "3,1,420\r\n";

/// The number and the line of a fault.
fn fault(text: impl AsRef<[u8]>) -> (u32, u32) {
    let (number, line, second) = refused_text(text);
    assert_eq!(second, 0);
    (number, line)
}

/// The fault in these bytes on line 3, where a line begins.
fn on_line_3(line: impl AsRef<[u8]>) -> u32 {
    let text = [&below(BEFORE)[..], line.as_ref(), AFTER.as_bytes()].concat();
    let (number, line) = fault(text);
    assert_eq!(line, 3);
    number
}

fn other_than(bytes: &[u8]) -> impl Iterator<Item = u8> + '_ {
    (0..=255).filter(|byte| !bytes.contains(byte))
}

#[test]
fn each_byte_of_the_heading_is_wanted() {
    let good = table_text(&HALVES).into_bytes();
    for place in 0..23 {
        for byte in other_than(&good[place..=place]) {
            let mut text = good.clone();
            text[place] = byte;
            assert_eq!(fault(&text), (41, 1));
            // What stands after it is not looked at.
            assert_eq!(fault(&text[..=place]), (41, 1));
        }
    }
}

#[test]
fn after_the_heading_comes_a_line_end() {
    let after = |byte: u8| fault([b"identifier,parent,share", &[byte][..], b"\n"].concat());
    assert_eq!(after(b'\r'), (1, 0));
    assert_eq!(after(b'\n'), (46, 1));
    for byte in other_than(b"\r\n") {
        assert_eq!(after(byte), (41, 1));
    }
}

#[test]
fn after_a_cr_comes_its_lf() {
    for byte in other_than(b"\n") {
        let heading = [b"identifier,parent,share\r", &[byte][..]].concat();
        assert_eq!(fault(heading), (46, 1));
        assert_eq!(on_line_3([b"2,1,420\r", &[byte][..]].concat()), 46);
    }
}

#[test]
fn a_field_begins_with_a_digit() {
    for before in ["", "2,", "2,1,"] {
        for byte in other_than(b"0123456789") {
            assert_eq!(on_line_3([before.as_bytes(), &[byte]].concat()), 42);
        }
    }
}

#[test]
fn a_comma_or_a_cr_ends_a_field_and_nothing_else_does() {
    for (before, end, wrong) in [
        ("2", b',', b'\r'),
        ("2,10", b',', b'\r'),
        ("2,1,0", b'\r', b','),
    ] {
        let with = |byte: u8| on_line_3([before.as_bytes(), &[byte]].concat());
        assert_eq!(with(wrong), 45);
        assert_eq!(with(b'\n'), 46);
        for byte in other_than(b"0123456789,\r\n") {
            assert_eq!(with(byte), 42);
        }
        // The fault is further on.
        assert_eq!(
            on_line_3([before.as_bytes(), &[end], b"x"].concat()),
            if end == b',' { 42 } else { 46 }
        );
    }
}

#[test]
fn only_0_itself_begins_with_0() {
    for before in ["", "2,", "2,1,"] {
        for digit in b"0123456789" {
            assert_eq!(on_line_3([before.as_bytes(), b"0", &[*digit]].concat()), 43);
        }
        assert_eq!(on_line_3(format!("{before}0x")), 42);
        assert_eq!(on_line_3(format!("{before}0000000000000")), 43);
    }
}

#[test]
fn numbers_go_up_to_4294967295() {
    let over = [
        "4294967296",
        "4294967299",
        "4294967300",
        "5000000000",
        "9999999999",
        "42949672950",
        "42949672959",
        "10000000000",
        "18446744073709551616",
        "18446744073709551617",
        "99999999999999999999",
    ];
    for before in ["", "2,", "2,1,"] {
        for number in over {
            assert_eq!(on_line_3(format!("{before}{number}")), 44);
        }
        for number in ["4294967295", "4294967289", "999999999", "1000000000"] {
            assert_eq!(on_line_3(format!("{before}{number}x")), 42);
        }
        assert_eq!(on_line_3(format!("{before}{}", "9".repeat(60_000))), 44);
    }
}

#[test]
fn the_largest_number_is_read_in_each_field() {
    for (row, refusal) in [
        ("4294967295,1,1", (15, 1, 0)),
        ("2,4294967295,1", (7, 1, 0)),
        ("2,1,4294967295", (8, 1, 0)),
        ("0,1,1", (4, 1, 0)),
        ("2,0,1", (7, 1, 0)),
        ("2,1,0", (8, 1, 0)),
    ] {
        let text = below(&format!("{BEFORE}{row}\r\n"));
        assert_eq!(refused_text(text), refusal);
    }
}

#[test]
fn a_line_has_three_fields() {
    for line in [
        "2\r\n",
        "2,1\r\n",
        "2,1,420,\r\n",
        "2,1,420,1\r\n",
        "2,1,420,,,\r\n",
    ] {
        assert_eq!(on_line_3(line), 45);
    }
    for line in [
        "\r\n",
        ",\r\n",
        ",,\r\n",
        "2,\r\n",
        "2,,420\r\n",
        "2,1,\r\n",
    ] {
        assert_eq!(on_line_3(line), 42);
    }
}

#[test]
fn a_line_ends_in_cr_lf() {
    assert_eq!(on_line_3("2,1,420\n"), 46);
    assert_eq!(on_line_3("2,1\n"), 46);
    assert_eq!(on_line_3("2\n"), 46);
    assert_eq!(on_line_3("2,1,420\r"), 46);
    assert_eq!(on_line_3("2,1,420\r\r\n"), 46);
    assert_eq!(on_line_3("2,1,420\n\r"), 46);
    assert_eq!(on_line_3("\n"), 42);
    let text = table_text(&HALVES);
    assert_eq!(fault(text.replace("\r\n", "\n")), (46, 1));
    assert_eq!(fault(text.replace("\r\n", "\r")), (46, 1));
    assert_eq!(
        fault(text.replacen("20,1,420\r\n", "20,1,420\n", 1)),
        (46, 4)
    );
}

/// After the heading and after the first row there are too few rows; else the text ends in a line.
#[test]
fn a_text_may_be_cut_at_line_ends_alone() {
    let text = table_text(&HALVES);
    for place in 0..text.len() {
        let cut = &text[..place];
        let lines = cut.matches('\n').count() as u32;
        let expected = match cut.ends_with('\n') {
            true if lines < 3 => (1, 0),
            true => continue,
            false => (47, lines + 1),
        };
        assert_eq!(fault(cut), expected, "{cut:?}");
    }
    assert_eq!(accepted_text(&below("1,0,0\r\n10,1,420\r\n")), HALVES[..2]);
}

#[test]
fn the_empty_text_and_a_cr_at_the_end_are_cut_off() {
    assert_eq!(fault(""), (47, 1));
    assert_eq!(fault("identifier,parent,share\r"), (47, 1));
    assert_eq!(fault(below("1,0,0\r")), (47, 2));
    assert_eq!(fault(below("1,0,0\r\n2,1,420\r")), (47, 3));
    assert_eq!(fault(below("1,0,0\r\n2,1,")), (47, 3));
}

#[test]
fn the_first_fault_is_the_answer() {
    let faults = [
        (42, "x"),
        (42, ",1,420\r\n"),
        (43, "00,1,420\r\n"),
        (44, "4294967296,1,420\r\n"),
        (45, "2,1\r\n"),
        (45, "2,1,420,"),
        (46, "2,1,420\n"),
        (46, "2,1,420\r1"),
    ];
    for (number, first) in faults {
        for (_, second) in faults {
            assert_eq!(on_line_3([first, second].concat()), number);
            // A text that ends too early ends after its other fault.
            assert_eq!(fault(below(&[BEFORE, first, "2,"].concat())), (number, 3));
        }
        assert_eq!(fault(["x", HEADING, first].concat()), (41, 1));
    }
    // Within one field, and from one to the next.
    assert_eq!(on_line_3("04294967296,"), 43);
    assert_eq!(on_line_3("4294967296;"), 44);
    assert_eq!(on_line_3("429496729;"), 42);
    assert_eq!(on_line_3("2;01"), 42);
    assert_eq!(on_line_3("2,01;"), 43);
    assert_eq!(on_line_3("2\n01"), 46);
}

#[test]
fn lines_are_counted_far_beyond_those_of_a_table() {
    for line in [2, 3, 255, 256, 257, 258, 300, 65_536, 65_537, 100_000] {
        let rows = BEFORE.repeat(line - 2);
        let text = below(&format!("{rows}1,0,00\r\n"));
        assert_eq!(fault(text), (43, line as u32));
    }
}

#[test]
fn a_text_that_is_longer_than_what_is_lent_is_not_looked_at() {
    for bytes in [
        table_text(&HALVES).into_bytes(),
        b"x\n".to_vec(),
        below("00\r\n"),
    ] {
        for lent in [0, 1, bytes.len() - 1] {
            let said = refused_read(&bytes[..lent], bytes.len(), [0; 3]);
            assert_eq!(said, (40, 0, 0));
        }
        let said = refused_read(&bytes, usize::MAX, [0; 3]);
        assert_eq!(said, (40, 0, 0));
    }
    assert_eq!(refused_read(b"", 0, [0; 3]), (47, 1, 0));
    assert_eq!(refused_read(b"", 1, [0; 3]), (40, 0, 0));
}

#[test]
fn what_is_lent_beyond_the_text_is_not_looked_at() {
    let good = table_text(&HALVES).into_bytes();
    let longer = [&good[..], b"x\n,,"].concat();
    assert_eq!(refused_read(&longer, good.len(), [2; 3]), (3, 0, 0));
    assert_eq!(refused_read(&longer, good.len() + 1, [2; 3]), (42, 5, 0));
    assert_eq!(refused_read(&longer, good.len() - 1, [2; 3]), (47, 4, 0));
}

#[test]
fn a_table_has_2_to_256_rows() {
    assert_eq!(refused_text(HEADING), (1, 0, 0));
    assert_eq!(refused_text(below(BEFORE)), (1, 0, 0));
    assert_eq!(refused_text(table_text(&wide(257))), (1, 0, 0));
    let text = below(&BEFORE.repeat(5_000));
    assert_eq!(refused_text(text), (1, 0, 0));
    for rows in [2, 255, 256] {
        assert_eq!(
            accepted_text(table_text(&wide(rows)).as_bytes()),
            wide(rows)
        );
    }
}

#[test]
fn each_slice_must_have_room_for_the_rows() {
    let text = table_text(&HALVES).into_bytes();
    for words in [[2, 3, 3], [3, 2, 3], [3, 3, 2], [0, 9, 9], [9, 9, 0]] {
        assert_eq!(refused_read(&text, text.len(), words), (3, 0, 0));
    }
}

#[test]
fn rows_are_counted_before_slices_are_looked_at_and_these_before_the_rows() {
    let one = below("0,0,0\r\n");
    assert_eq!(refused_read(&one, one.len(), [0; 3]), (1, 0, 0));
    let refused = below("0,0,0\r\n0,0,0\r\n");
    assert_eq!(refused_read(&refused, refused.len(), [1; 3]), (3, 0, 0));
    assert_eq!(refused_read(&refused, refused.len(), [2; 3]), (4, 0, 0));
    let cut = &refused[..refused.len() - 1];
    assert_eq!(refused_read(cut, cut.len(), [0; 3]), (47, 3, 0));
}

#[test]
fn a_tables_own_refusals_have_their_rows() {
    let tables = [
        ((4, 2, 0), vec![ROOT, (10, 1, 420), (0, 1, 420)]),
        ((5, 2, 1), vec![ROOT, (10, 1, 420), (10, 1, 420)]),
        ((5, 3, 0), vec![ROOT, (10, 1, 1), (20, 1, 1), (1, 1, 1)]),
        ((6, 0, 0), vec![(1, 0, 840), (10, 1, 420)]),
        ((7, 1, 0), vec![ROOT, (10, 10, 420)]),
        ((8, 1, 0), vec![ROOT, (10, 1, 841)]),
        ((9, 9, 0), chain(9)),
        (
            (10, 1, 0),
            vec![ROOT, (10, 1, 1), (20, 10, 840), (30, 10, 1)],
        ),
        ((15, 1, 0), vec![ROOT, (65_536, 1, 420)]),
    ];
    for (expected, rows) in tables {
        assert_eq!(refused_text(table_text(&rows)), expected);
    }
}
