//! The program `table` over accepted tables: the tree that it draws, and its call.

use crate::common::files::{failed, file, printed, table, table_text};
use crate::common::{chain, wide, Row, ROOT};

const HEADING: &str = "class                 share  % of parent  % of the line\n";

/// What is drawn for these rows, below the heading.
fn drawn(test: &str, rows: &[Row]) -> String {
    let said = table(&[file(&format!("{test}.table"), table_text(rows).as_bytes())]);
    let lines = said.output.strip_prefix(HEADING).expect("it has a heading");
    assert_eq!(said, printed(&format!("{HEADING}{lines}")));
    lines.to_string()
}

/// The last column of each line.
fn of_line(test: &str, rows: &[Row]) -> Vec<String> {
    let lines = drawn(test, rows);
    let columns = lines
        .lines()
        .map(|line| line[42..].trim_start().to_string());
    columns.collect()
}

/// A class in each depth down to 8, all with this share.
fn steps(share: u32) -> Vec<Row> {
    let mut rows = chain(8);
    rows[1..].iter_mut().for_each(|row| row.2 = share);
    rows
}

#[test]
fn a_table_is_drawn_as_exactly_this() {
    let expected = "\
1                                                100.00
  100                   420        50.00          50.00
    110                 630        75.00          37.50
";
    let rows = [ROOT, (100, 1, 420), (110, 100, 630)];
    assert_eq!(drawn("tree_small", &rows), expected);
}

/// Thirds, halves and quarters, cut: 2/3 is 66.66, 1/6 is 16.66.
#[test]
fn rows_stand_below_their_parent_in_the_order_of_rows() {
    let rows = [
        ROOT,
        (20, 1, 280),
        (10, 1, 560),
        (12, 10, 420),
        (25, 20, 280),
        (11, 10, 210),
        (7, 25, 840),
        (24, 20, 560),
    ];
    let expected = "\
1                                                100.00
  20                    280        33.33          33.33
    25                  280        33.33          11.11
      7                 840       100.00          11.11
    24                  560        66.66          22.22
  10                    560        66.66          66.66
    12                  420        50.00          33.33
    11                  210        25.00          16.66
";
    assert_eq!(drawn("tree_order", &rows), expected);
}

#[test]
fn the_longest_names_still_have_a_blank_after_them() {
    let mut rows = steps(839);
    for (row, identifier) in rows.iter_mut().zip(65_527..) {
        *row = (identifier, identifier - 1, row.2);
    }
    rows[0].1 = 0;
    let expected = "\
65527                                            100.00
  65528                 839        99.88          99.88
    65529               839        99.88          99.76
      65530             839        99.88          99.64
        65531           839        99.88          99.52
          65532         839        99.88          99.40
            65533       839        99.88          99.28
              65534     839        99.88          99.16
                65535   839        99.88          99.05
";
    assert_eq!(drawn("tree_long", &rows), expected);
}

#[test]
fn the_whole_of_the_whole_is_the_whole() {
    assert_eq!(of_line("tree_whole", &steps(840)), ["100.00"; 9]);
}

#[test]
fn the_smallest_parts_are_not_0() {
    let expected = "\
1                                                100.00
  10                      1         0.11           0.11
    20                    1         0.11         < 0.01
      30                  1         0.11         < 0.01
        40                1         0.11         < 0.01
          50              1         0.11         < 0.01
            60            1         0.11         < 0.01
              70          1         0.11         < 0.01
                80        1         0.11         < 0.01
";
    assert_eq!(drawn("tree_least", &steps(1)), expected);
    // 84 is a tenth.
    let tenths = of_line("tree_tenths", &steps(84));
    assert_eq!(
        tenths[..6],
        ["100.00", "10.00", "1.00", "0.10", "0.01", "< 0.01"]
    );
}

/// 3/4 of a third is a quarter, and of 33.33 it would be 24.99.
#[test]
fn only_what_is_printed_is_cut() {
    let rows = [ROOT, (2, 1, 280), (3, 2, 630)];
    assert_eq!(of_line("tree_cut", &rows), ["100.00", "33.33", "25.00"]);
    // A third eight times over is 1/6561, which is 0.0152 per cent.
    assert_eq!(of_line("tree_thirds", &steps(280))[8], "0.01");
    // 27/40 eight times over is 4.3095 per cent.
    assert_eq!(of_line("tree_deep", &steps(567))[8], "4.30");
}

#[test]
fn each_share_is_cut_after_two_decimals() {
    for share in 1..=840_u32 {
        let lines = drawn("tree_shares", &[ROOT, (2, 1, share)]);
        let hundredths = share * 10_000 / 840;
        let part = format!("{}.{:02}", hundredths / 100, hundredths % 100);
        let line = lines.lines().nth(1).expect("it has a row");
        assert_eq!(
            line,
            format!("  2                   {share:>5}  {part:>11}  {part:>13}")
        );
    }
}

#[test]
fn all_of_256_rows_are_drawn() {
    let lines = drawn("tree_wide", &wide(256));
    assert_eq!(lines.lines().count(), 256);
    for (line, identifier) in lines.lines().skip(1).zip(1001..) {
        let expected = format!("  {identifier}                    3         0.35           0.35");
        assert_eq!(line, expected);
    }
}

#[test]
fn a_wrong_number_of_arguments_is_named() {
    let usage = failed("cannot read: give a class table, table TABLE");
    assert_eq!(table::<&str>(&[]), usage);
    assert_eq!(table(&["one", "two"]), usage);
}
