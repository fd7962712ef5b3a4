//! Tables whose text has a fault, and what each must be answered with.

use crate::plan::TABLE;

/// A text with the number and the place of its answer.
pub struct Faulty {
    pub name: String,
    pub bytes: Vec<u8>,
    pub answer: [u32; 2],
}

/// A heading in other forms, all of which are fault 41.
const HEADINGS: [&str; 17] = [
    "identifier;parent;share",
    "identifier\tparent\tshare",
    "\"identifier\",\"parent\",\"share\"",
    "identifier,\"parent\",share",
    "identifier,parent,share ",
    "identifier,parent,share\t",
    " identifier,parent,share",
    "identifier, parent, share",
    "Identifier,Parent,Share",
    "identifier,parent,share,",
    "identifier,parent,shares",
    "identifier,parent",
    "identifi\u{e9}r,parent,share",
    "identifier,parent,share\0",
    "\0",
    "class,length",
    "",
];

/// Lines of fields that are no numbers.
const NOT_NUMBERS: [&str; 33] = [
    "2;1;420",
    "2\t1\t420",
    "2 1 420",
    "\"2\",\"1\",\"420\"",
    "2,\"1\",420",
    "2,1,\"420\"",
    "2,1,4\"20",
    "2,1,4\"\"20",
    "2,1,420 ",
    "2,1,420\t",
    " 2,1,420",
    "2, 1,420",
    "2 ,1,420",
    "2,1,0.5",
    "2,1,.5",
    "2,1,-200",
    "-2,1,420",
    "2,1,+5",
    "2,1,50%",
    "2,1,x",
    "two,one,half",
    "2,1,4x0",
    "2,1,0x1A4",
    "2,1,4e2",
    "2,1,\0",
    "2\0,1,420",
    "2,1,42\u{e9}",
    "\u{661},1,420",
    "2,1,4\u{a0}200",
    ",,",
    ",1,420",
    "2,,420",
    "2,1,",
];

/// Other lines that are faulty, with their numbers.
const LINES: [(&str, u32); 27] = [
    ("02,1,420", 43),
    ("02x,1,420", 43),
    ("2,01,420", 43),
    ("2,1,0420", 43),
    ("00,1,420", 43),
    ("2,1,00", 43),
    ("2,1,000000000000000000000", 43),
    ("2,1,04294967296", 43),
    ("4294967296,1,420", 44),
    ("2,4294967296,420", 44),
    ("2,1,4294967296", 44),
    ("2,1,4294967300", 44),
    ("2,1,42949672950", 44),
    ("2,1,18446744073709551617", 44),
    ("99999999999999999999,1,420", 44),
    ("2,99999999999999999999,420", 44),
    ("2,1,99999999999999999999", 44),
    ("2,1,4294967296x", 44),
    ("2,x,0420", 42),
    ("2", 45),
    ("2,1", 45),
    ("2,1,420,", 45),
    ("2,1,420,1", 45),
    ("2,1,420,x", 45),
    ("2,1,420,01", 45),
    ("2,1,420,,,", 45),
    ("2,1\r1,420", 45),
];

/// Lines 3 and 6 with a fault each, or with what would be refused if there were no fault.
const PAIRS: [(&str, &str, [u32; 2]); 7] = [
    ("x\r\n", "05,2,420\r\n", [42, 3]),
    ("02,1,420\r\n", "x\r\n", [43, 3]),
    ("4294967296,1,420\r\n", "5,2,420\n", [44, 3]),
    ("2,1,420\n", "4294967296,2,420\r\n", [46, 3]),
    ("2,1\r\n", "5,2", [45, 3]),
    ("0,1,420\r\n", "5,2,420\r", [47, 6]),
    ("1,1,420\r\n", "5,2,420\n", [46, 6]),
];

/// What a text is filled up with.
const ROW: &str = "1,0,0\r\n";

/// Bytes that the programs lend for a text.
const LENT: usize = 65_536;

pub fn faulty_tables() -> Vec<Faulty> {
    [
        headings(),
        codes(),
        lines(),
        ends(),
        cuts(),
        sizes(),
        far_lines(),
        pairs(),
    ]
    .into_iter()
    .flatten()
    .collect()
}

fn faulty(name: impl Into<String>, bytes: impl Into<Vec<u8>>, answer: [u32; 2]) -> Faulty {
    Faulty {
        name: name.into(),
        bytes: bytes.into(),
        answer,
    }
}

/// The table with another line 3.
fn with_line_3(line: &str) -> String {
    TABLE.replacen("2,1,420\r\n", line, 1)
}

fn headings() -> Vec<Faulty> {
    let (own, _) = TABLE.split_at(23);
    let with = |heading: &str| {
        let name = format!("heading {heading:?}");
        faulty(name, TABLE.replacen(own, heading, 1), [41, 1])
    };
    HEADINGS.into_iter().map(with).collect()
}

fn codes() -> Vec<Faulty> {
    let marked = format!("\u{feff}{TABLE}");
    let words = |text: &str, to: fn(u16) -> [u8; 2]| -> Vec<u8> {
        text.encode_utf16().flat_map(to).collect()
    };
    let [low, high] = [u16::to_le_bytes, u16::to_be_bytes];
    let texts = [
        ("a byte order mark", marked.clone().into_bytes()),
        ("UTF-16, low byte first, marked", words(&marked, low)),
        ("UTF-16, high byte first, marked", words(&marked, high)),
        ("UTF-16, low byte first", words(TABLE, low)),
        ("UTF-16, high byte first", words(TABLE, high)),
        ("a byte order mark alone", b"\xef\xbb\xbf".to_vec()),
        ("half of a byte order mark", b"\xef\xbb".to_vec()),
        ("a mark of UTF-16 alone", b"\xff\xfe".to_vec()),
        ("bytes over 127", vec![200; 100]),
    ];
    texts
        .map(|(name, bytes)| faulty(name, bytes, [41, 1]))
        .into()
}

fn lines() -> Vec<Faulty> {
    let not_numbers = NOT_NUMBERS.into_iter().map(|line| (line, 42));
    let with = |(line, number): (&str, u32)| {
        let name = format!("line {line:?}");
        faulty(name, with_line_3(&format!("{line}\r\n")), [number, 3])
    };
    not_numbers.chain(LINES).map(with).collect()
}

fn ends() -> Vec<Faulty> {
    let all = |end: &str| TABLE.replace("\r\n", end);
    let last = |end: &str| format!("{}{end}", TABLE.trim_end());
    let after = |more: &str| format!("{TABLE}{more}");
    let texts = [
        ("LF alone", all("\n"), [46, 1]),
        ("CR alone", all("\r"), [46, 1]),
        ("LF CR", all("\n\r"), [46, 1]),
        ("CR CR LF", all("\r\r\n"), [46, 1]),
        ("an LF heading", TABLE.replacen('\r', "", 1), [46, 1]),
        ("an LF line", with_line_3("2,1,420\n"), [46, 3]),
        ("a CR line", with_line_3("2,1,420\r"), [46, 3]),
        ("a CR CR LF line", with_line_3("2,1,420\r\r\n"), [46, 3]),
        ("a short LF line", with_line_3("2,1\n"), [46, 3]),
        ("LF at the end", last("\n"), [46, 6]),
        ("CR at the end", last("\r"), [47, 6]),
        ("no end", last(""), [47, 6]),
        ("an empty line", with_line_3("\r\n2,1,420\r\n"), [42, 3]),
        ("an empty LF line", with_line_3("\n2,1,420\r\n"), [42, 3]),
        ("an empty line at the end", after("\r\n"), [42, 7]),
        ("an LF line at the end", after("\n"), [42, 7]),
        ("a CR line at the end", after("\r"), [42, 7]),
        ("a blank at the end", after(" "), [42, 7]),
        ("a zero byte at the end", after("\0"), [42, 7]),
        ("byte 26 at the end", after("\x1a"), [42, 7]),
    ];
    texts
        .map(|(name, bytes, answer)| faulty(format!("ends: {name}"), bytes, answer))
        .into()
}

/// The table cut off at each place where it is not a table any more.
fn cuts() -> Vec<Faulty> {
    let cut = |place: usize| {
        let text = &TABLE[..place];
        let lines = text.matches('\n').count() as u32;
        let answer = match text.ends_with('\n') {
            true if lines > 2 => return None,
            true => [1, 0],
            false => [47, lines + 1],
        };
        Some(faulty(format!("cut after {place} bytes"), text, answer))
    };
    (0..TABLE.len()).filter_map(cut).collect()
}

/// Texts of just as many bytes as are lent, and of one more, which makes any text too long.
fn sizes() -> Vec<Faulty> {
    let filled = |text: &str| {
        let rows = ROW.repeat(LENT / ROW.len() + 1);
        let mut filled = format!("{text}{rows}");
        filled.truncate(LENT);
        filled
    };
    // Five lines are one byte longer, so that the last one ends with the text.
    let rows = filled(&format!("{}{}", &TABLE[..25], "10,0,0\r\n".repeat(5)));
    let cut = filled(&TABLE[..25]);
    let mut last_byte = cut.clone();
    last_byte.replace_range(LENT - 1.., "x");
    let within = filled(&with_line_3("2;1;420\r\n"));
    let texts = [
        ("of rows", rows, [1, 0]),
        ("of rows cut off", cut, [47, 9360]),
        ("with a fault at the end", last_byte, [42, 9360]),
        ("with a fault", within, [42, 3]),
        ("of letters", "x".repeat(LENT), [41, 1]),
    ];
    let both = |(name, text, answer): (&str, String, [u32; 2])| {
        let longer = format!("{text}1");
        [
            faulty(format!("{LENT} bytes {name}"), text, answer),
            faulty(format!("{} bytes {name}", LENT + 1), longer, [40, 0]),
        ]
    };
    texts.into_iter().flat_map(both).collect()
}

fn far_lines() -> Vec<Faulty> {
    let on_line = |line: usize| {
        let text = [&TABLE[..25], &ROW.repeat(line - 2), "1,0,00\r\n"].concat();
        faulty(format!("a fault on line {line}"), text, [43, line as u32])
    };
    [255, 256, 257, 258, 300, 5000].map(on_line).into()
}

/// Two faults, of which the first is the answer.
fn pairs() -> Vec<Faulty> {
    let with = |(third, last, answer): (&str, &str, [u32; 2])| {
        let text = with_line_3(third).replacen("5,2,420\r\n", last, 1);
        faulty(format!("lines {third:?} and {last:?}"), text, answer)
    };
    let heading = TABLE.replacen(',', ";", 1);
    let ends = heading.replace("\r\n", "\n");
    let one_row = format!("{}1,0,0", &TABLE[..25]);
    let others = [
        faulty("a wrong heading and LF alone", ends, [41, 1]),
        faulty("a wrong heading, cut off", &heading[..20], [41, 1]),
        faulty("one row, cut off", one_row, [47, 2]),
    ];
    PAIRS.into_iter().map(with).chain(others).collect()
}

#[cfg(test)]
mod tests {
    use std::collections::BTreeSet;

    use super::*;
    use second::{read_table, TableRoom};

    #[test]
    fn each_text_is_answered_as_it_must_be() {
        for Faulty {
            name,
            bytes,
            answer,
        } in faulty_tables()
        {
            let room = TableRoom {
                identifiers: &mut [],
                parents: &mut [],
                shares: &mut [],
            };
            let lent = &bytes[..bytes.len().min(LENT)];
            let found = read_table(lent, bytes.len(), room);
            assert_eq!([found.number, found.place], answer, "{name}");
        }
    }

    #[test]
    fn names_are_distinct_and_every_number_is_there() {
        let tables = faulty_tables();
        let names: BTreeSet<&String> = tables.iter().map(|table| &table.name).collect();
        assert_eq!(names.len(), tables.len());
        let numbers: BTreeSet<u32> = tables.iter().map(|table| table.answer[0]).collect();
        assert_eq!(numbers, [1].into_iter().chain(40..=47).collect());
    }
}
