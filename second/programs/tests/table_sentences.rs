//! The sentence for each fault of a table's text, and what stands beside it on standard output.

use std::ffi::OsString;

use second::program::respond;

use crate::common::files::{file, named, over_bytes, refused, table_text};
use crate::common::texts::{below, HEADING};
use crate::common::{wide, HALVES};

/// Runs the program over these bytes and compares all that it prints; events are not read.
fn says(test: &str, table: &[u8], [number, line]: [u32; 2], sentence: &str) {
    let sentence = named(test, &format!("refused {number} in TABLE: {sentence}"));
    let expected = refused(&format!("{number},{line},0,0"), &sentence);
    assert_eq!(
        over_bytes(test, table, b"x"),
        expected,
        "{}",
        table.escape_ascii()
    );
}

/// How the sentence for this table ends.
fn sentence(test: &str, table: &[u8]) -> String {
    let table = file(&format!("{test}.table"), table);
    let response = respond(&[table.into_os_string(), OsString::from("no such events")]);
    let said = String::from_utf8(response.error).expect("a sentence is text");
    let (number, said) = said.split_once(": ").expect("a sentence has a number");
    assert!(number.starts_with("refused 4"));
    said.strip_suffix('\n').expect("it has an end").to_string()
}

/// The sentence for this line 3.
fn on_line_3(test: &str, line: impl AsRef<[u8]>) -> String {
    sentence(test, &[&below("1,0,0\r\n")[..], line.as_ref()].concat())
}

/// How each byte that is not a digit is named.
fn found(byte: u8) -> String {
    match byte {
        9 => "a tab".to_string(),
        10 => "LF".to_string(),
        13 => "CR".to_string(),
        32 => "a blank".to_string(),
        34 => "a quote".to_string(),
        44 => "a comma".to_string(),
        59 => "a semicolon".to_string(),
        33..=126 => format!("\"{}\"", char::from(byte)),
        _ => format!("byte {byte}"),
    }
}

#[test]
fn sentence_40_names_what_is_lent() {
    let said = "the text has more than 65536 bytes; no table has more than 4371: \
                give it 2 to 256 rows.";
    for bytes in [65_537, 65_538, 200_000] {
        let mut text = below(&"1,0,0\r\n".repeat(30_000));
        text.truncate(bytes);
        says("sentence_40", &text, [40, 0], said);
        says("sentence_40", &vec![0; bytes], [40, 0], said);
    }
}

#[test]
fn a_text_of_65536_bytes_is_looked_at() {
    let mut text = below(&"1,0,0\r\n".repeat(10_000));
    text.truncate(65_536);
    let cut = "the text ends inside line 9360; \
               end it with CR LF, and see that no line is missing.";
    says("most_text", &text, [47, 9360], cut);
    text[65_535] = b'x';
    let found = "line 9360 has \"x\" in field 3; give it a number in digits alone.";
    says("most_text", &text, [42, 9360], found);
    let rows = ["1,0,0\r\n".repeat(9353), "10,0,0\r\n".repeat(5)].concat();
    let text = below(&rows);
    assert_eq!(text.len(), 65_536);
    let said = over_bytes("most_rows", &text, b"class,length\n");
    let sentence = "refused 1 in TABLE: the table has 9358 rows; give it 2 to 256.";
    assert_eq!(said, refused("1,0,0,0", &named("most_rows", sentence)));
}

#[test]
fn sentence_41_for_other_codes() {
    let good = table_text(&HALVES);
    let mark = "line 1 begins with a byte order mark; save the file without one.";
    says(
        "sentence_41_mark",
        format!("\u{feff}{good}").as_bytes(),
        [41, 1],
        mark,
    );
    says("sentence_41_mark", b"\xef\xbb\xbf", [41, 1], mark);
    let wide = "line 1 is UTF-16; save the file as UTF-8.";
    for text in [good.clone(), format!("\u{feff}{good}")] {
        let words = || text.encode_utf16();
        let low: Vec<u8> = words().flat_map(u16::to_le_bytes).collect();
        says("sentence_41_low", &low, [41, 1], wide);
        let high: Vec<u8> = words().flat_map(u16::to_be_bytes).collect();
        says("sentence_41_high", &high, [41, 1], wide);
    }
    for text in [
        &b"\xff\xfe"[..],
        b"\xfe\xff",
        b"\0",
        b"identifier,parent,share\0",
    ] {
        says("sentence_41_wide", text, [41, 1], wide);
    }
    // What only begins like a mark is named as a byte.
    let byte = "line 1 has byte 239 at byte 1, where the heading identifier,parent,share has not; \
                write the heading as it stands here.";
    says("sentence_41_byte", b"\xef\xbb", [41, 1], byte);
    assert!(sentence("sentence_41_byte", b"\xff\xff").starts_with("line 1 has byte 255 at byte 1,"));
    assert!(sentence("sentence_41_byte", b"\xfe").starts_with("line 1 has byte 254 at byte 1,"));
}

/// Byte 0 is UTF-16's, byte 10 after the heading fault 46, and byte 13 no fault there.
#[test]
fn sentence_41_names_each_byte_and_its_place() {
    for place in [1, 11, 23, 24] {
        for byte in 1..=255 {
            let mut text = table_text(&HALVES).into_bytes();
            if text[place - 1] == byte || (place == 24 && byte == b'\n') {
                continue;
            }
            text[place - 1] = byte;
            let mend = match byte {
                9 | 59 => "separate the fields by commas",
                34 => "write the fields without quotes",
                32 => "take it out",
                _ => "write the heading as it stands here",
            };
            let expected = format!(
                "line 1 has {} at byte {place}, \
                 where the heading identifier,parent,share has not; {mend}.",
                found(byte)
            );
            assert_eq!(sentence("sentence_41_all", &text), expected);
        }
    }
}

#[test]
fn sentence_42_names_each_byte_and_its_field() {
    for (before, field) in [
        ("", 1),
        ("2", 1),
        ("2,", 2),
        ("2,10", 2),
        ("2,1,", 3),
        ("2,1,0", 3),
    ] {
        for byte in (0..=255).filter(|byte| !b"0123456789,\r\n".contains(byte)) {
            let mend = match byte {
                9 | 59 => "separate the fields by commas",
                34 => "write the fields without quotes",
                32 => "take it out",
                43 | 45 => "numbers have no sign",
                46 => "give it a whole number",
                37 => "a share is so many parts of 840, not per cent",
                _ => "give it a number in digits alone",
            };
            let expected = format!("line 3 has {} in field {field}; {mend}.", found(byte));
            let line = [before.as_bytes(), &[byte], b"1,420\r\n"].concat();
            assert_eq!(on_line_3("sentence_42_all", line), expected);
        }
    }
}

#[test]
fn sentence_42_for_what_is_missing() {
    for end in ["\r\n", "\n", "\r"] {
        let empty = on_line_3("sentence_42_empty", end);
        assert_eq!(empty, "line 3 is empty; take it out.");
        for (field, before) in [(2, "2,"), (3, "2,1,")] {
            let said = on_line_3("sentence_42_end", format!("{before}{end}"));
            let nothing = format!(
                "line 3 has nothing in field {field}; give it a number, or take the line out."
            );
            assert_eq!(said, nothing);
        }
    }
    for (field, before) in (1..).zip(["", "2,", "2,1,"]) {
        let said = on_line_3("sentence_42_comma", format!("{before},1\r\n"));
        let nothing =
            format!("line 3 has nothing in field {field}; give it a number, or take the line out.");
        assert_eq!(said, nothing);
    }
}

#[test]
fn sentences_43_and_44_name_the_field() {
    for (field, before) in (1..).zip(["", "2,", "2,1,"]) {
        let zero = below(&format!("1,0,0\r\n{before}007"));
        let said = format!("line 3 has a leading zero in field {field}; take it out.");
        says(&format!("sentence_43_{field}"), &zero, [43, 3], &said);
        let large = below(&format!("1,0,0\r\n{before}4294967296"));
        let said = format!(
            "line 3 has a number over 4294967295 in field {field}; \
             identifiers go up to 65535 and shares up to 840."
        );
        says(&format!("sentence_44_{field}"), &large, [44, 3], &said);
    }
}

#[test]
fn sentence_45_for_too_few_and_too_many_fields() {
    for (field, line) in [(1, "2\r\n"), (2, "2,1\r\n")] {
        let said = format!(
            "line 2 ends after field {field}; give it three: identifier, parent and share."
        );
        says(
            &format!("sentence_45_{field}"),
            &below(line),
            [45, 2],
            &said,
        );
    }
    let said = "line 2 has more than three fields; give it three: identifier, parent and share.";
    says("sentence_45_many", &below("1,0,0,0\r\n"), [45, 2], said);
}

#[test]
fn sentence_46_for_lf_alone_and_for_cr_alone() {
    let alone = "ends in LF alone; lines end in CR LF: save it with Windows line ends, or put it through unix2dos.";
    let plain = table_text(&HALVES).replace("\r\n", "\n");
    says(
        "sentence_46",
        plain.as_bytes(),
        [46, 1],
        &format!("line 1 {alone}"),
    );
    let mixed = below("1,0,0\r\n2,1,420\n");
    says("sentence_46", &mixed, [46, 3], &format!("line 3 {alone}"));
    let cr = "has CR with no LF after it; a line ends in one CR and one LF: save it with Windows line ends.";
    let old = table_text(&HALVES).replace("\r\n", "\r");
    says(
        "sentence_46_cr",
        old.as_bytes(),
        [46, 1],
        &format!("line 1 {cr}"),
    );
    let doubled = below("1,0,0\r\r\n");
    says("sentence_46_cr", &doubled, [46, 2], &format!("line 2 {cr}"));
}

#[test]
fn sentence_47_for_an_empty_text_and_one_cut_off() {
    let empty = "the text is empty; begin it with the heading identifier,parent,share.";
    says("sentence_47_empty", b"", [47, 1], empty);
    let cut = |line: u32| {
        format!(
            "the text ends inside line {line}; \
             end it with CR LF, and see that no line is missing."
        )
    };
    says("sentence_47_1", b"identifier", [47, 1], &cut(1));
    says("sentence_47_1", &HEADING.as_bytes()[..24], [47, 1], &cut(1));
    says("sentence_47_2", &below("1,0,0\r"), [47, 2], &cut(2));
    let most = table_text(&wide(299));
    let text = &most.as_bytes()[..most.len() - 2];
    says("sentence_47_300", text, [47, 300], &cut(300));
}
