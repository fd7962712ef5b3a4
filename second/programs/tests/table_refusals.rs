//! The program `table` over refused tables: all refusals in their order, each with its sentence.

use crate::common::files::{event_text, file, named, program, refused, table, table_text, Printed};
use crate::common::texts::below;
use crate::common::{chain, wide, Row, ROOT};

/// A refusal's number, place and second place, and how its sentence ends.
type Refusal<'a> = ([u32; 3], &'a str);

/// Compares all that is printed for these rows. What a run answers must come first.
fn says(test: &str, rows: &[Row], refusals: &[Refusal]) {
    let line = |([number, place, second], _): &Refusal| format!("{number},{place},{second},0");
    let sentence = |([number, ..], rest): &Refusal| format!("refused {number} in TABLE: {rest}");
    let lines: Vec<String> = refusals.iter().map(line).collect();
    let sentences: Vec<String> = refusals.iter().map(sentence).collect();
    let expected = refused(&lines.join("\n"), &named(test, &sentences.join("\n")));
    assert_eq!(over_rows(test, rows), expected);
    let first = by_second(test, table_text(rows).as_bytes());
    assert!(expected.output.starts_with(&first.output));
    assert!(expected.error.starts_with(&first.error));
}

fn over_rows(test: &str, rows: &[Row]) -> Printed {
    over_bytes(test, table_text(rows).as_bytes())
}

fn over_bytes(test: &str, text: &[u8]) -> Printed {
    table(&[file(&format!("{test}.table"), text)])
}

/// What `second` prints for this table and no events.
fn by_second(test: &str, text: &[u8]) -> Printed {
    let table = file(&format!("{test}.table"), text);
    let events = file(&format!("{test}.events"), event_text(&[]).as_bytes());
    program(&[table, events])
}

/// The refusals of these rows without their sentences.
fn numbers(test: &str, rows: &[Row]) -> Vec<[u32; 3]> {
    let said = over_rows(test, rows);
    assert_eq!(said.output.lines().count(), 1 + said.error.lines().count());
    let field = |field: &str| field.parse().expect("an answer has numbers");
    let line = |line: &str| -> [u32; 3] {
        let fields: Vec<u32> = line.split(',').map(field).collect();
        assert_eq!((fields.len(), fields[3]), (4, 0));
        [fields[0], fields[1], fields[2]]
    };
    said.output.lines().skip(1).map(line).collect()
}

#[test]
fn a_wrong_number_of_rows_is_refused_alone() {
    let faulty = [(0, 5, 5), (0, 99, 900), (65_536, 1, 0)];
    let tables = [
        (vec![], "the table has 0 rows; give it 2 to 256."),
        (vec![ROOT], "the table has 1 row; give it 2 to 256."),
        (vec![(0, 9, 9)], "the table has 1 row; give it 2 to 256."),
        (wide(257), "the table has 257 rows; give it 2 to 256."),
        (
            faulty.repeat(100),
            "the table has 300 rows; give it 2 to 256.",
        ),
    ];
    for (rows, rest) in tables {
        says("all_1", &rows, &[([1, 0, 0], rest)]);
    }
}

#[test]
fn each_refusal_of_row_0_alone() {
    let zero = "row 0 (line 2) has identifier 0; give it a number from 1 to 65535.";
    says("all_4", &[(0, 0, 0), (10, 0, 1)], &[([4, 0, 0], zero)]);
    let large = "row 0 (line 2) has identifier 65537, which the modem cuts to its low 16 bits, 1; \
                 give it a number from 1 to 65535.";
    let rows = [(65_537, 0, 0), (10, 65_537, 1)];
    says("all_15", &rows, &[([15, 0, 0], large)]);
    let share = "row 0 (line 2), class 1, is the line itself and has parent 0 and share 840; \
                 set both to 0.";
    says("all_6", &[(1, 0, 840), (10, 1, 1)], &[([6, 0, 0], share)]);
    let class = "row 0 (line 2), class 1, has parent 1 and share 900, as a class does; \
                 the line's own row comes first: put it above, with parent 0 and share 0.";
    says("all_6", &[(1, 1, 900), (10, 1, 1)], &[([6, 0, 0], class)]);
}

/// What row 2 holds, and what is refused of it under row 1, class 10.
const CLASS_REFUSALS: [(Row, Refusal); 5] = [
    (
        (0, 1, 1),
        (
            [4, 2, 0],
            "row 2 (line 4) has identifier 0; give it a number from 1 to 65535.",
        ),
    ),
    (
        (65_536, 1, 1),
        (
            [15, 2, 0],
            "row 2 (line 4) has identifier 65536, which the modem cuts to its low 16 bits, 0; \
             give it a number from 1 to 65535.",
        ),
    ),
    (
        (10, 1, 1),
        (
            [5, 2, 1],
            "row 2 (line 4) repeats identifier 10 of row 1 (line 3); \
             give one of the two another identifier.",
        ),
    ),
    (
        (20, 20, 1),
        (
            [7, 2, 0],
            "row 2 (line 4), class 20, has parent 20, which is no earlier row's identifier; \
             name the identifier of a row above it.",
        ),
    ),
    (
        (20, 1, 0),
        (
            [8, 2, 0],
            "row 2 (line 4), class 20, has share 0; give it a share from 1 to 840.",
        ),
    ),
];

#[test]
fn each_refusal_of_a_class_alone() {
    for (row, refusal) in CLASS_REFUSALS {
        let rows = [ROOT, (10, 1, 420), row, (30, 1, 419)];
        says("all_class", &rows, &[refusal]);
    }
}

#[test]
fn a_sum_alone() {
    let rest = "the children of row 1 (line 3), class 10, have shares that add up to 841: \
                class 20 has 500, class 15 has 341; bring them to 840 or less.";
    let rows = [
        ROOT,
        (10, 1, 420),
        (20, 10, 500),
        (30, 1, 420),
        (15, 10, 341),
    ];
    says("all_10", &rows, &[([10, 1, 0], rest)]);
}

/// What is refused of the table below, row by row and then by sums.
const ALL_REFUSALS: [Refusal; 11] = [
    (
        [6, 0, 0],
        "row 0 (line 2), class 1, has parent 3 and share 5, as a class does; the line's \
         own row comes first: put it above, with parent 0 and share 0.",
    ),
    (
        [4, 1, 0],
        "row 1 (line 3) has identifier 0; give it a number from 1 to 65535.",
    ),
    (
        [15, 2, 0],
        "row 2 (line 4) has identifier 65536, which the modem cuts to its low 16 bits, \
         0; give it a number from 1 to 65535.",
    ),
    (
        [8, 3, 0],
        "row 3 (line 5), class 10, has share 900; give it a share from 1 to 840.",
    ),
    (
        [5, 4, 3],
        "row 4 (line 6) repeats identifier 10 of row 3 (line 5); give one of the two \
         another identifier.",
    ),
    (
        [7, 5, 0],
        "row 5 (line 7), class 20, has parent 99, which is no earlier row's identifier; \
         name the identifier of a row above it.",
    ),
    (
        [9, 13, 0],
        "row 13 (line 15), class 38, has depth 9; put it under a class of depth 7 or \
         less.",
    ),
    (
        [9, 14, 0],
        "row 14 (line 16), class 39, has depth 10; put it under a class of depth 7 or \
         less.",
    ),
    (
        [9, 15, 0],
        "row 15 (line 17), class 40, has depth 10; put it under a class of depth 7 or \
         less.",
    ),
    (
        [10, 0, 0],
        "the children of row 0 (line 2), class 1, have shares that add up to 1200: \
         class 0 has 100, class 65536 has 100, class 10 has 900, class 10 has 100; \
         bring them to 840 or less.",
    ),
    (
        [10, 13, 0],
        "the children of row 13 (line 15), class 38, have shares that add up to 841: \
         class 39 has 500, class 40 has 341; bring them to 840 or less.",
    ),
];

/// Row 6 is the child of a row that has no parent, and rows 14 and 15 of one that is too deep.
#[test]
fn all_of_them_in_one_table() {
    let mut rows = vec![
        (1, 3, 5),
        (0, 1, 100),
        (65_536, 1, 100),
        (10, 1, 900),
        (10, 1, 100),
        (20, 99, 100),
        (31, 20, 840),
    ];
    rows.extend((32..=38).map(|class| (class, class - 1, 840)));
    rows.extend([(39, 38, 500), (40, 38, 341)]);
    says("all_in_one", &rows, &ALL_REFUSALS);
}

#[test]
fn a_row_is_refused_for_the_first_of_its_tests() {
    let mut deep = chain(8);
    let orders: [([u32; 3], Row); 8] = [
        ([4, 9, 0], (0, 99, 900)),
        ([4, 9, 0], (0, 80, 900)),
        ([15, 9, 0], (65_536, 99, 900)),
        ([15, 9, 0], (65_536, 80, 840)),
        ([5, 9, 8], (80, 99, 900)),
        ([5, 9, 0], (1, 80, 840)),
        ([7, 9, 0], (90, 99, 900)),
        ([8, 9, 0], (90, 80, 0)),
    ];
    for (expected, row) in orders {
        deep.truncate(9);
        deep.push(row);
        let first = numbers("first_test", &deep);
        // A share of 900 is too much for its parent too, where it has one.
        let sum = (row.1 == 80 && row.2 == 900).then_some([10, 8, 0]);
        assert_eq!(first, [expected].into_iter().chain(sum).collect::<Vec<_>>());
    }
    for (expected, row) in [([4, 0, 0], (0, 9, 9)), ([15, 0, 0], (65_536, 9, 9))] {
        let rows = [row, (10, row.0, 840)];
        assert_eq!(numbers("first_test", &rows), [expected]);
    }
}

#[test]
fn a_third_row_repeats_the_first_one_too() {
    let rows = [ROOT, (10, 1, 1), (10, 1, 1), (10, 1, 1), (1, 1, 1)];
    let expected = [[5, 2, 1], [5, 3, 1], [5, 4, 0]];
    assert_eq!(numbers("all_repeated", &rows), expected);
    // A number that is refused itself is repeated by none.
    let rows = [ROOT, (65_536, 1, 1), (65_536, 1, 1), (0, 1, 1), (0, 1, 1)];
    let expected = [[15, 1, 0], [15, 2, 0], [4, 3, 0], [4, 4, 0]];
    assert_eq!(numbers("all_repeated", &rows), expected);
}

#[test]
fn a_sum_counts_shares_that_are_refused() {
    let share = "row 1 (line 3), class 10, has share 900; give it a share from 1 to 840.";
    let sum = "the children of row 0 (line 2), class 1, have shares that add up to 900: \
               class 10 has 900; bring them to 840 or less.";
    let rows = [ROOT, (10, 1, 900)];
    says("sum_900", &rows, &[([8, 1, 0], share), ([10, 0, 0], sum)]);
    let rows = [ROOT, (10, 1, u32::MAX), (20, 1, u32::MAX)];
    let said = over_rows("sum_most", &rows).error;
    let sum = "add up to 8589934590: class 10 has 4294967295, class 20 has 4294967295; ";
    assert!(said.contains(sum), "{said}");
    // Of classes that are refused for something else, too.
    let rows = [ROOT, (0, 1, 420), (65_536, 1, 420), (1, 1, 1)];
    let expected = [[4, 1, 0], [15, 2, 0], [5, 3, 0], [10, 0, 0]];
    assert_eq!(numbers("sum_others", &rows), expected);
}

#[test]
fn a_row_without_a_parent_is_nobodys_child() {
    let rows = [
        ROOT,
        (10, 1, 840),
        (20, 99, 1),
        (30, 0, 1),
        (40, 50, 1),
        (50, 10, 1),
    ];
    let expected = [[7, 2, 0], [7, 3, 0], [7, 4, 0]];
    assert_eq!(numbers("sum_orphans", &rows), expected);
    // Row 0 is nobody's either, and not its own.
    let rows = [(1, 1, 840), (10, 1, 840)];
    assert_eq!(numbers("sum_orphans", &rows), [[6, 0, 0]]);
}

#[test]
fn a_child_is_that_of_the_first_row_with_the_identifier() {
    let repeated = "row 3 (line 5) repeats identifier 10 of row 1 (line 3); \
                    give one of the two another identifier.";
    let sum = "the children of row 1 (line 3), class 10, have shares that add up to 841: \
               class 30 has 840, class 40 has 1; bring them to 840 or less.";
    let rows = [ROOT, (10, 1, 100), (30, 10, 840), (10, 1, 100), (40, 10, 1)];
    says(
        "sum_repeated",
        &rows,
        &[([5, 3, 1], repeated), ([10, 1, 0], sum)],
    );
    // Row 1 has the line's own identifier, so that row 2 stands under the line.
    let rows = [ROOT, (1, 1, 420), (30, 1, 420)];
    assert_eq!(numbers("sum_root", &rows), [[5, 1, 0]]);
    let rows = [ROOT, (1, 1, 420), (30, 1, 421)];
    assert_eq!(numbers("sum_root", &rows), [[5, 1, 0], [10, 0, 0]]);
}

#[test]
fn a_row_whose_identifier_is_refused_may_be_a_parent() {
    let rows = [
        ROOT,
        (0, 1, 100),
        (20, 0, 840),
        (30, 0, 1),
        (65_536, 1, 1),
        (40, 65_536, 841),
    ];
    let expected = [[4, 1, 0], [15, 4, 0], [8, 5, 0], [10, 1, 0], [10, 4, 0]];
    assert_eq!(numbers("sum_refused", &rows), expected);
}

#[test]
fn sums_stand_in_the_order_of_rows() {
    let rows = [
        ROOT,
        (10, 1, 420),
        (20, 1, 420),
        (21, 20, 841),
        (11, 10, 840),
        (12, 10, 1),
        (30, 1, 1),
    ];
    let expected = [[8, 3, 0], [10, 0, 0], [10, 1, 0], [10, 2, 0]];
    assert_eq!(numbers("sum_order", &rows), expected);
}

#[test]
fn each_depth_beyond_8_is_named() {
    let rows = chain(255);
    let said = over_rows("depths", &rows);
    let expected: Vec<String> = (9..=255)
        .map(|depth| {
            format!(
                "refused 9 in TABLE: row {depth} (line {}), class {}, has depth {depth}; \
                 put it under a class of depth 7 or less.\n",
                depth + 2,
                10 * depth
            )
        })
        .collect();
    assert_eq!(said.error, named("depths", &expected.concat()));
    let expected: Vec<[u32; 3]> = (9..=255).map(|row| [9, row, 0]).collect();
    assert_eq!(numbers("depths", &rows), expected);
}

/// Without its parent a class has depth 1, and so those below it are less deep.
#[test]
fn depths_count_from_a_row_without_a_parent() {
    let mut rows = chain(12);
    rows[4].1 = 99;
    let expected = [[7, 4, 0], [9, 12, 0]];
    assert_eq!(numbers("depth_orphan", &rows), expected);
    assert!(over_rows("depth_orphan", &rows)
        .error
        .contains("class 120, has depth 9; "));
    rows.pop();
    assert_eq!(numbers("depth_orphan", &rows), [[7, 4, 0]]);
}

/// A row that is refused for something else counts as a step of depth.
#[test]
fn depths_count_through_refused_rows() {
    let mut rows = chain(10);
    rows[9].2 = 0;
    let expected = [[8, 9, 0], [9, 10, 0]];
    assert_eq!(numbers("depth_through", &rows), expected);
    assert!(over_rows("depth_through", &rows)
        .error
        .contains("class 100, has depth 10; "));
}

#[test]
fn a_fault_of_the_text_is_answered_as_in_a_run() {
    let long = [&below("")[..], &[b'1'; 65_512]].concat();
    let texts = [
        &long[..],
        b"class,length\r\n",
        &below("1;0;0\r\n"),
        &below("01,0,0\r\n"),
        &below("1,0,4294967296\r\n"),
        &below("1,0\r\n"),
        b"identifier,parent,share\n1,0,0\n",
        b"",
    ];
    for (number, text) in (40..).zip(texts) {
        let said = over_bytes("faulty_tree", text);
        assert_eq!(said, by_second("faulty_tree", text));
        assert!(said.error.starts_with(&format!("refused {number} in ")));
    }
}
