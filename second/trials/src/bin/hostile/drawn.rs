//! Tables whose tree, or whose refusals with their sentences, are written here in full.

use crate::plan::{bytes, Input, Trial, Wanted};
use trials::{Program, ANSWER};

/// Rows, and the tree below its heading.
const TREES: [(&str, &str); 5] = [
    (
        "1,0,0 100,1,420 110,100,630",
        "\
1                                                100.00
  100                   420        50.00          50.00
    110                 630        75.00          37.50
",
    ),
    (
        "65535,0,0 2,65535,280 3,65535,560 20,2,1 30,3,840 21,2,839 31,30,84",
        "\
65535                                            100.00
  2                     280        33.33          33.33
    20                    1         0.11           0.03
    21                  839        99.88          33.29
  3                     560        66.66          66.66
    30                  840       100.00          66.66
      31                 84        10.00           6.66
",
    ),
    (
        "1,0,0 2,1,84 3,2,84 4,3,84 5,4,84 6,5,840 7,6,839",
        "\
1                                                100.00
  2                      84        10.00          10.00
    3                    84        10.00           1.00
      4                  84        10.00           0.10
        5                84        10.00           0.01
          6             840       100.00           0.01
            7           839        99.88         < 0.01
",
    ),
    (
        "1,0,0 2,1,839 3,2,839 4,3,839 5,4,839 6,5,839 7,6,839 8,7,839 65535,8,839",
        "\
1                                                100.00
  2                     839        99.88          99.88
    3                   839        99.88          99.76
      4                 839        99.88          99.64
        5               839        99.88          99.52
          6             839        99.88          99.40
            7           839        99.88          99.28
              8         839        99.88          99.16
                65535   839        99.88          99.05
",
    ),
    (
        "1,0,0 2,1,1 3,2,1 4,3,1 5,4,1 6,5,1 7,6,1 8,7,1 9,8,1",
        "\
1                                                100.00
  2                       1         0.11           0.11
    3                     1         0.11         < 0.01
      4                   1         0.11         < 0.01
        5                 1         0.11         < 0.01
          6               1         0.11         < 0.01
            7             1         0.11         < 0.01
              8           1         0.11         < 0.01
                9         1         0.11         < 0.01
",
    ),
];

const HEADING: &str = "class                 share  % of parent  % of the line\n";

/// Rows, and the refusals, each with what its sentence says of the table.
const REFUSED: [(&str, &[(&str, &str)]); 6] = [
    ("", &[("1,0,0,0", "the table has 0 rows; give it 2 to 256.")]),
    (
        "1,9,840 2,1,840",
        &[(
            "6,0,0,0",
            "row 0 (line 2), class 1, has parent 9 and share 840, as a class does; the line's own \
             row comes first: put it above, with parent 0 and share 0.",
        )],
    ),
    (
        "1,0,5 0,1,1 1,1,840 65536,1,0",
        &[
            (
                "6,0,0,0",
                "row 0 (line 2), class 1, is the line itself and has parent 0 and share 5; \
                 set both to 0.",
            ),
            (
                "4,1,0,0",
                "row 1 (line 3) has identifier 0; give it a number from 1 to 65535.",
            ),
            (
                "5,2,0,0",
                "row 2 (line 4) repeats identifier 1 of row 0 (line 2); \
                 give one of the two another identifier.",
            ),
            (
                "15,3,0,0",
                "row 3 (line 5) has identifier 65536, which the modem cuts to its low 16 bits, 0; \
                 give it a number from 1 to 65535.",
            ),
            (
                "10,0,0,0",
                "the children of row 0 (line 2), class 1, have shares that add up to 841: \
                 class 0 has 1, class 1 has 840, class 65536 has 0; bring them to 840 or less.",
            ),
        ],
    ),
    (
        "1,0,0 2,1,1 3,2,1 4,3,1 5,4,1 6,5,1 7,6,1 8,7,1 9,8,1 10,9,1 11,10,1 12,13,1 13,12,841",
        &[
            (
                "9,9,0,0",
                "row 9 (line 11), class 10, has depth 9; put it under a class of depth 7 or less.",
            ),
            (
                "9,10,0,0",
                "row 10 (line 12), class 11, has depth 10; put it under a class of depth 7 or less.",
            ),
            (
                "7,11,0,0",
                "row 11 (line 13), class 12, has parent 13, which is no earlier row's identifier; \
                 name the identifier of a row above it.",
            ),
            (
                "8,12,0,0",
                "row 12 (line 14), class 13, has share 841; give it a share from 1 to 840.",
            ),
            (
                "10,11,0,0",
                "the children of row 11 (line 13), class 12, have shares that add up to 841: \
                 class 13 has 841; bring them to 840 or less.",
            ),
        ],
    ),
    (
        "1,0,0 2,1,4294967295 3,1,4294967295 4,2,840 2,1,7 5,2,1",
        &[
            (
                "8,1,0,0",
                "row 1 (line 3), class 2, has share 4294967295; give it a share from 1 to 840.",
            ),
            (
                "8,2,0,0",
                "row 2 (line 4), class 3, has share 4294967295; give it a share from 1 to 840.",
            ),
            (
                "5,4,1,0",
                "row 4 (line 6) repeats identifier 2 of row 1 (line 3); \
                 give one of the two another identifier.",
            ),
            (
                "10,0,0,0",
                "the children of row 0 (line 2), class 1, have shares that add up to 8589934597: \
                 class 2 has 4294967295, class 3 has 4294967295, class 2 has 7; \
                 bring them to 840 or less.",
            ),
            (
                "10,1,0,0",
                "the children of row 1 (line 3), class 2, have shares that add up to 841: \
                 class 4 has 840, class 5 has 1; bring them to 840 or less.",
            ),
        ],
    ),
    (
        "1,0,0 2,2,500 3,2,500 4,2,400",
        &[
            (
                "7,1,0,0",
                "row 1 (line 3), class 2, has parent 2, which is no earlier row's identifier; \
                 name the identifier of a row above it.",
            ),
            (
                "10,1,0,0",
                "the children of row 1 (line 3), class 2, have shares that add up to 900: \
                 class 3 has 500, class 4 has 400; bring them to 840 or less.",
            ),
        ],
    ),
];

pub fn tables_in_full() -> Vec<Trial> {
    let trees = TREES.iter().map(|(rows, tree)| {
        let tree = format!("{HEADING}{tree}");
        of(rows, Wanted::Text(tree, String::new()))
    });
    let refused = REFUSED.iter().map(|(rows, refusals)| {
        let lines = refusals.iter().map(|(line, _)| format!("{line}\r\n"));
        let output = format!("{ANSWER}\r\n{}", lines.collect::<String>());
        of(
            rows,
            Wanted::Text(output, refusals.iter().map(sentence).collect()),
        )
    });
    trees.chain(refused).collect()
}

/// By standard input the name of the table is known here.
fn of(rows: &str, wanted: Wanted) -> Trial {
    let lines = rows.split_whitespace().map(|row| format!("{row}\r\n"));
    let text = format!("identifier,parent,share\r\n{}", lines.collect::<String>());
    Trial {
        name: format!("in full: {rows}"),
        program: Program::Table,
        inputs: vec![Input::Standard(Box::new(bytes(&text)))],
        wanted: Some(wanted),
    }
}

fn sentence((line, rest): &(&str, &str)) -> String {
    let number = line.split(',').next().unwrap_or("");
    format!("refused {number} in standard input: {rest}\n")
}
