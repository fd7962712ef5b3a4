//! Tables and reports written as text: the bytes, reading them again, and what is refused.

use second::{write_report, Answer};

use crate::common::files::{table_text, with_cr};
use crate::common::texts::{accepted_text, refused_write, write_rows, written};
use crate::common::{chain, wide, Columns, Row, HALVES, P4_ROWS, ROOT, THIRDS, TWO_LEVELS};

/// Bytes of the longest text that a table has.
const MOST: usize = 4371;

/// 256 rows whose lines are all as long as they can be: eight classes under each row.
fn longest() -> Vec<Row> {
    let class = |row: u32| (10_000 + row, 10_000 + (row - 1) / 8, 105);
    let root = (10_000, 0, 0);
    [root].into_iter().chain((1..256).map(class)).collect()
}

fn accepted_tables() -> Vec<Vec<Row>> {
    vec![
        HALVES.to_vec(),
        THIRDS.to_vec(),
        TWO_LEVELS.to_vec(),
        P4_ROWS.to_vec(),
        vec![(65_535, 0, 0), (1, 65_535, 840)],
        vec![ROOT, (65_535, 1, 1), (65_534, 65_535, 1)],
        chain(8),
        wide(256),
        longest(),
    ]
}

#[test]
fn a_table_is_written_as_its_lines() {
    let text = "identifier,parent,share\n1,0,0\n10,1,420\n20,1,420\n";
    assert_eq!(
        written(100, write_rows(&HALVES)),
        with_cr(text).into_bytes()
    );
}

#[test]
fn a_table_that_is_written_and_read_is_the_same_table() {
    for rows in accepted_tables() {
        assert_eq!(accepted_text(&written(MOST, write_rows(&rows))), rows);
    }
}

#[test]
fn a_text_that_is_read_and_written_is_the_same_text() {
    for rows in accepted_tables() {
        let text = table_text(&rows).into_bytes();
        assert_eq!(written(MOST, write_rows(&accepted_text(&text))), text);
    }
}

#[test]
fn a_text_must_fit_in_what_is_lent_for_it() {
    for rows in accepted_tables() {
        let length = table_text(&rows).len();
        assert_eq!(written(length, write_rows(&rows)).len(), length);
        for lent in [0, 1, length - 1] {
            assert_eq!(refused_write(lent, write_rows(&rows)), (40, 0, 0));
        }
    }
    assert_eq!(written(MOST, write_rows(&longest())).len(), MOST);
}

#[test]
fn a_wrong_number_of_rows_is_not_written() {
    for rows in [vec![], vec![ROOT], wide(257)] {
        for lent in [0, 10_000] {
            assert_eq!(refused_write(lent, write_rows(&rows)), (1, 0, 0));
        }
    }
    let shorten: [fn(&mut Columns); 3] = [
        |c| c.identifiers.truncate(2),
        |c| c.parents.truncate(2),
        |c| c.shares.truncate(2),
    ];
    for shorten in shorten {
        let mut columns = Columns::new(&HALVES, &[]);
        shorten(&mut columns);
        let write = |bytes: &mut [u8]| second::write_table(columns.table(), bytes);
        assert_eq!(refused_write(0, write), (1, 0, 0));
    }
}

#[test]
fn a_table_that_is_refused_is_not_written() {
    let tables = [
        ((4, 1, 0), vec![ROOT, (0, 1, 420)]),
        ((5, 2, 1), vec![ROOT, (10, 1, 420), (10, 1, 420)]),
        ((6, 0, 0), vec![(1, 1, 0), (10, 1, 420)]),
        ((7, 1, 0), vec![ROOT, (10, u32::MAX, 420)]),
        ((8, 1, 0), vec![ROOT, (10, 1, u32::MAX)]),
        ((9, 9, 0), chain(9)),
        ((10, 0, 0), vec![ROOT, (10, 1, 840), (20, 1, 1)]),
        ((15, 1, 0), vec![ROOT, (u32::MAX, 1, 420)]),
    ];
    for (expected, rows) in tables {
        let length = table_text(&rows).len();
        assert_eq!(refused_write(length, write_rows(&rows)), expected);
        // The room is looked at before the rows.
        assert_eq!(refused_write(length - 1, write_rows(&rows)), (40, 0, 0));
    }
}

const IDENTIFIERS: [u32; 3] = [1, 0, u32::MAX];
const LAGS: [i64; 3] = [0, i64::MIN, i64::MAX];
const REPORT: [u64; 15] = [
    0,
    1,
    2,
    3,
    4,
    u64::MAX,
    u64::MAX - 1,
    10,
    100,
    9,
    99,
    1 << 63,
    1 << 32,
    u64::MAX,
    0,
];

const REPORT_TEXT: &str = "\
identifier,bytes,start,finish,virtual,held,lag
1,0,1,2,3,4,0
0,18446744073709551615,18446744073709551614,10,100,9,-9223372036854775808
4294967295,99,9223372036854775808,4294967296,18446744073709551615,0,9223372036854775807
";

/// Writes the report of so many identifiers from so many of its words and lags.
fn report(rows: usize, words: usize, lags: usize) -> impl FnOnce(&mut [u8]) -> Answer {
    let [identifiers, report, lags] = [rows, words, lags];
    move |bytes| {
        write_report(
            &vec![7; 300][..identifiers],
            &vec![8; 2000][..report],
            &vec![-9; 300][..lags],
            bytes,
        )
    }
}

#[test]
fn a_report_is_written_as_its_lines() {
    let write = |bytes: &mut [u8]| write_report(&IDENTIFIERS, &REPORT, &LAGS, bytes);
    let text = with_cr(REPORT_TEXT).into_bytes();
    assert_eq!(written(1000, write), text);
    assert_eq!(written(text.len(), write), text);
    for lent in [0, 1, text.len() - 1] {
        assert_eq!(refused_write(lent, write), (40, 0, 0));
    }
}

#[test]
fn each_number_of_a_report_is_the_one_that_was_put_in() {
    let numbers = |line: &str| -> Vec<i128> {
        let fields = line.split(',').map(str::parse);
        fields.map(|number| number.expect("it is one")).collect()
    };
    let rows = REPORT_TEXT.lines().skip(1).map(numbers);
    for (row, found) in rows.enumerate() {
        let mut expected = vec![i128::from(IDENTIFIERS[row])];
        expected.extend(REPORT[5 * row..5 * row + 5].iter().map(|n| i128::from(*n)));
        expected.push(i128::from(LAGS[row]));
        assert_eq!(found, expected);
    }
}

#[test]
fn words_beyond_the_rows_are_not_written() {
    let text = written(1000, report(2, 10, 2));
    assert_eq!(written(1000, report(2, 2000, 300)), text);
    let line = "7,8,8,8,8,8,-9\r\n";
    let heading = "identifier,bytes,start,finish,virtual,held,lag\r\n";
    assert_eq!(text, [heading, line, line].concat().into_bytes());
    assert_eq!(written(10_000, report(256, 1280, 256)).len(), 48 + 256 * 16);
}

#[test]
fn a_report_has_2_to_256_rows_then_its_words_then_room() {
    for rows in [0, 1, 257, 300] {
        for (words, lags) in [(0, 0), (2000, 300)] {
            assert_eq!(refused_write(0, report(rows, words, lags)), (1, 0, 0));
        }
    }
    for rows in [2, 3, 256] {
        for (words, lags) in [
            (5 * rows - 1, rows),
            (5 * rows, rows - 1),
            (0, 300),
            (2000, 0),
        ] {
            assert_eq!(refused_write(0, report(rows, words, lags)), (3, 0, 0));
        }
        assert_eq!(refused_write(0, report(rows, 5 * rows, rows)), (40, 0, 0));
    }
}
