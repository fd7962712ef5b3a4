//! Each refusal's sentence, and that only two lines go to standard output with it.

use second::Room;

use crate::common::files::{named, over_rows, refused};
use crate::common::{chain, marked, wide, Columns, Event, Row, FINISH, HALVES, ROOT, TWO_LEVELS};

/// Runs the program over files and compares all it prints; the sentence has TABLE or EVENTS for a
/// file's name.
fn says(test: &str, rows: &[Row], events: &[Event], numbers: &str, sentence: &str) {
    let expected = refused(&format!("{numbers},0"), &named(test, sentence));
    assert_eq!(over_rows(test, rows, events), expected);
}

/// How the sentence ends for columns that cannot come from files, over slices of this room.
fn library_sentence(columns: &Columns, mut room: Room) -> Option<String> {
    let answer = columns.run(&mut room);
    second::sentence(&answer, &columns.table(), &columns.events())
}

#[test]
fn sentence_1_names_the_number_of_rows() {
    let said = "refused 1 in TABLE: the table has 257 rows; give it 2 to 256.";
    says("sentence_1", &wide(257), &[], "1,0,0", said);
}

#[test]
fn sentence_1_for_an_empty_table() {
    let said = "refused 1 in TABLE: the table has 0 rows; give it 2 to 256.";
    says("sentence_1_empty", &[], &[], "1,0,0", said);
}

#[test]
fn sentence_1_for_unequal_slices() {
    let mut columns = Columns::new(&HALVES, &[]);
    columns.parents.pop();
    let said = "the table's three slices differ in length; make them equal.";
    let found = library_sentence(&columns, marked(3, 0, 0));
    assert_eq!(found.as_deref(), Some(said));
}

#[test]
fn sentence_2_names_the_number_of_events() {
    let events = vec![(10, 1); 65_537];
    let said = "refused 2 in EVENTS: the list has 65537 events; give it at most 65536.";
    says("sentence_2", &HALVES, &events, "2,0,0", said);
}

#[test]
fn sentence_2_for_unequal_slices() {
    let mut columns = Columns::new(&HALVES, &[(10, 1)]);
    columns.lengths.pop();
    let said = "the list's two slices differ in length; make them equal.";
    let found = library_sentence(&columns, marked(3, 1, 0));
    assert_eq!(found.as_deref(), Some(said));
}

#[test]
fn sentence_3_for_a_short_slice() {
    let columns = Columns::new(&HALVES, &[]);
    let said = "a slice lent for the results is too short.";
    let found = library_sentence(&columns, marked(2, 0, 0));
    assert_eq!(found.as_deref(), Some(said));
}

#[test]
fn an_accepted_run_has_no_sentence() {
    let columns = Columns::new(&HALVES, &[]);
    assert_eq!(library_sentence(&columns, marked(3, 0, 0)), None);
}

#[test]
fn sentence_4_names_the_row_and_its_line() {
    let rows = [ROOT, (10, 1, 280), (20, 1, 280), (0, 1, 280)];
    let said = "refused 4 in TABLE: row 3 (line 5) has identifier 0; \
                give it a number from 1 to 65535.";
    says("sentence_4", &rows, &[], "4,3,0", said);
}

#[test]
fn sentence_5_names_both_rows() {
    let rows = [ROOT, (10, 1, 420), (10, 1, 420)];
    let said = "refused 5 in TABLE: row 2 (line 4) repeats identifier 10 of row 1 (line 3); \
                give one of the two another identifier.";
    says("sentence_5", &rows, &[], "5,2,1", said);
}

#[test]
fn sentence_6_names_the_roots_parent_or_share() {
    for (parent, share) in [(3, 0), (0, 5), (0, u32::MAX)] {
        let rows = [(7, parent, share), (10, 7, 420)];
        let said = format!(
            "refused 6 in TABLE: row 0 (line 2), class 7, is the line itself and has parent \
             {parent} and share {share}; set both to 0."
        );
        says("sentence_6", &rows, &[], "6,0,0", &said);
    }
}

#[test]
fn sentence_6_for_a_class_in_the_roots_place() {
    let rows = [(7, 3, 5), (10, 7, 420)];
    let said = "refused 6 in TABLE: row 0 (line 2), class 7, has parent 3 and share 5, as a class \
                does; the line's own row comes first: put it above, with parent 0 and share 0.";
    says("sentence_6_class", &rows, &[], "6,0,0", said);
}

#[test]
fn sentence_7_names_the_parent() {
    let rows = [ROOT, (10, 1, 420), (20, 99, 420)];
    let said = "refused 7 in TABLE: row 2 (line 4), class 20, has parent 99, which is no earlier \
                row's identifier; name the identifier of a row above it.";
    says("sentence_7", &rows, &[], "7,2,0", said);
}

#[test]
fn sentence_8_names_the_share() {
    for share in [0, 841, 4_294_967_295] {
        let said = format!(
            "refused 8 in TABLE: row 1 (line 3), class 10, has share {share}; \
             give it a share from 1 to 840."
        );
        let test = format!("sentence_8_{share}");
        says(&test, &[ROOT, (10, 1, share)], &[], "8,1,0", &said);
    }
}

#[test]
fn sentence_9_names_the_depth() {
    let said = "refused 9 in TABLE: row 9 (line 11), class 90, has depth 9; \
                put it under a class of depth 7 or less.";
    says("sentence_9", &chain(9), &[], "9,9,0", said);
}

#[test]
fn sentence_10_names_the_sum_and_the_children() {
    let rows = [ROOT, (10, 1, 420), (20, 1, 420), (30, 1, 1)];
    let said =
        "refused 10 in TABLE: the children of row 0 (line 2), class 1, have shares that add \
                up to 841: class 10 has 420, class 20 has 420, class 30 has 1; bring them to 840 \
                or less.";
    says("sentence_10", &rows, &[], "10,0,0", said);
}

#[test]
fn sentence_10_names_the_children_of_that_row_alone() {
    let rows = [
        ROOT,
        (30, 1, 400),
        (20, 1, 300),
        (7, 20, 500),
        (8, 30, 600),
        (2, 20, 400),
        (3, 1, 140),
    ];
    let said = "refused 10 in TABLE: the children of row 2 (line 4), class 20, have shares that \
                add up to 900: class 7 has 500, class 2 has 400; bring them to 840 or less.";
    says("sentence_10_inner", &rows, &[], "10,2,0", said);
}

#[test]
fn sentence_11_names_the_class() {
    let events = [(10, 1), (20, 1), FINISH, (77, 1)];
    let said = "refused 11 in EVENTS: event 3 (line 5) is for class 77, which no row has; \
                name a class of the table.";
    says("sentence_11", &HALVES, &events, "11,3,0", said);
}

#[test]
fn sentence_12_for_the_root() {
    let events = [(10, 1), (20, 1), FINISH, (1, 1)];
    let said = "refused 12 in EVENTS: event 3 (line 5) is for class 1, row 0 (line 2), which is \
                the line itself; name a class with no class below it.";
    says("sentence_12_root", &HALVES, &events, "12,3,0", said);
}

#[test]
fn sentence_12_for_an_inner_class() {
    let events = [(3, 1), (3, 1), FINISH, (2, 1)];
    let said = "refused 12 in EVENTS: event 3 (line 5) is for class 2, row 1 (line 3), which has \
                classes below it; name a class with no class below it.";
    says("sentence_12_inner", &TWO_LEVELS, &events, "12,3,0", said);
}

#[test]
fn sentence_13_for_a_packet() {
    let said = "refused 13 in EVENTS: event 0 (line 2), for class 10, has length 9001; \
                a packet has 1 to 9000 bytes.";
    says("sentence_13", &HALVES, &[(10, 9001)], "13,0,0", said);
}

#[test]
fn sentence_13_for_a_finish() {
    let events = [(10, 1), (20, 1), FINISH, (0, 5)];
    let said = "refused 13 in EVENTS: event 3 (line 5) is a finish with length 5; \
                a finish has length 0.";
    says("sentence_13_finish", &HALVES, &events, "13,3,0", said);
}

#[test]
fn sentence_14_for_an_idle_line() {
    let said = "refused 14 in EVENTS: event 0 (line 2) is a finish while the line is idle; \
                take it out or put an arrival before it.";
    says("sentence_14", &HALVES, &[FINISH], "14,0,0", said);
}

#[test]
fn sentence_15_names_what_the_modem_sends() {
    let said = |place: usize, identifier: u32, sent: u32| {
        format!(
            "refused 15 in TABLE: row {place} (line {}) has identifier {identifier}, \
             which the modem cuts to its low 16 bits, {sent}; give it a number from 1 to 65535.",
            place + 2
        )
    };
    for (identifier, sent) in [(65_536, 0), (65_546, 10), (u32::MAX, 65_535)] {
        let rows = [ROOT, (10, 1, 420), (identifier, 1, 420)];
        let test = format!("sentence_15_{identifier}");
        says(&test, &rows, &[], "15,2,0", &said(2, identifier, sent));
        let rows = [(identifier, 0, 0), (10, identifier, 420)];
        let test = format!("sentence_15_root_{identifier}");
        says(&test, &rows, &[], "15,0,0", &said(0, identifier, sent));
    }
}
