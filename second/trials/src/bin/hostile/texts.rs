//! Damaged forms of a text that is read.

use trials::{lines, Random};

/// Bytes of a line that is far longer than any number; of a table's text no more are read than
/// the first of them leaves room for.
const LONG: [usize; 2] = [60_000, 5_000_000];

/// Bytes of a file of random bytes.
const RANDOM: usize = 65_536;

const NUMBERS: [&str; 4] = [
    "4294967295",
    "4294967296",
    "18446744073709551616",
    "0004294967296",
];

const NOT_NUMBERS: [&str; 12] = [
    "-1", "+1", " 1", "1 ", "\t1", "1\t", "0x10", "x", "1.0", "1e3", "", "\0",
];

/// A text and what was done to it.
pub struct Text {
    pub name: String,
    pub bytes: Vec<u8>,
}

fn text(name: impl Into<String>, bytes: impl Into<Vec<u8>>) -> Text {
    Text {
        name: name.into(),
        bytes: bytes.into(),
    }
}

/// All damaged forms of a text with a heading and at least one line of numbers below it.
pub fn damaged(good: &str) -> Vec<Text> {
    [
        cut(good),
        ends(good),
        other_codes(good),
        LONG.into_iter()
            .flat_map(|long| long_lines(good, long))
            .collect(),
        fields(good),
        field_counts(good),
    ]
    .into_iter()
    .flatten()
    .collect()
}

/// The end of each of its lines.
fn end(good: &str) -> &'static str {
    match good.ends_with("\r\n") {
        true => "\r\n",
        false => "\n",
    }
}

fn heading(good: &str) -> &str {
    good.split_inclusive('\n').next().unwrap_or(good)
}

/// The text with its last line replaced.
fn with_last(good: &str, last: &str) -> String {
    let body = good.trim_end();
    let before = body.rfind('\n').map_or(0, |at| at + 1);
    format!("{}{last}{}", &good[..before], end(good))
}

fn cut(good: &str) -> Vec<Text> {
    let heading = heading(good);
    let without_end = |text: &str| text.trim_end().to_string();
    let in_number = without_end(&with_last(good, "1,234"));
    vec![
        text("empty", ""),
        text("one line end", end(good)),
        text("heading alone", heading),
        text("heading without end", without_end(heading)),
        text("heading cut", &heading[..5]),
        text("no heading", &good[heading.len()..]),
        text("last line without end", without_end(good)),
        text("cut inside a number", &in_number[..in_number.len() - 1]),
    ]
}

fn ends(good: &str) -> Vec<Text> {
    let own = end(good);
    let others = ["\r", "\n", "\r\n", "\r\r\n", "\n\n", "\n\r"];
    let with = |other: &str| {
        let name = format!("lines that end in {other:?}");
        text(name, good.replace(own, other))
    };
    let others = others.into_iter().filter(|other| *other != own);
    let last = [
        text("a line of one CR at the end", format!("{good}\r")),
        text("an empty line at the end", format!("{good}{own}")),
    ];
    others.map(with).chain(last).collect()
}

fn other_codes(good: &str) -> Vec<Text> {
    let mut random = Random::new(64, 0);
    let mut bytes = || {
        (0..RANDOM)
            .map(|_| random.below(256) as u8)
            .collect::<Vec<u8>>()
    };
    let words = |to: fn(u16) -> [u8; 2]| -> Vec<u8> {
        let marked = format!("\u{feff}{good}");
        marked.encode_utf16().flat_map(to).collect()
    };
    vec![
        text("NUL bytes alone", vec![0; 1000]),
        text("NUL bytes at the end", format!("{good}\0\0\0")),
        text(
            "a NUL byte for each line end",
            good.replace(end(good), "\0"),
        ),
        text("random bytes", bytes()),
        text("random bytes below", [good.as_bytes(), &bytes()].concat()),
        text("UTF-8 mark", format!("\u{feff}{good}")),
        text("UTF-16, low byte first", words(u16::to_le_bytes)),
        text("UTF-16, high byte first", words(u16::to_be_bytes)),
        text("Arabic digits", good.replace('1', "\u{661}")),
    ]
}

fn long_lines(good: &str, long: usize) -> Vec<Text> {
    let end = end(good);
    let [digits, commas, zeros] = ["7", ",", "0"].map(|byte| byte.repeat(long));
    let ends = end.repeat(long / end.len());
    let below = |text: &str| good.replacen('\n', &format!("\n{text}"), 1);
    let texts = [
        ("digits as a heading", format!("{digits}{end}")),
        ("digits as a line", with_last(good, &digits)),
        ("commas as a line", with_last(good, &commas)),
        ("digits before the first line", below(&digits)),
        ("leading zeros", below(&zeros)),
        ("line ends", format!("{good}{ends}")),
        ("digits", digits),
        ("commas", commas),
    ];
    texts
        .map(|(name, bytes)| text(format!("{long} bytes of {name}"), bytes))
        .into()
}

/// Each wrong field in each place of the last line.
fn fields(good: &str) -> Vec<Text> {
    let long = "9".repeat(1000);
    let zeros = format!("{}1", "0".repeat(1000));
    let wrong = NUMBERS
        .into_iter()
        .chain(NOT_NUMBERS)
        .chain([&long[..], &zeros]);
    let last = good.lines().last().unwrap_or("");
    let places = last.split(',').count();
    let put = |wrong: &str, place: usize| {
        let mut fields: Vec<&str> = last.split(',').collect();
        fields[place] = wrong;
        let shown: String = wrong.chars().take(24).collect();
        text(
            format!("{shown:?} in field {}", place + 1),
            with_last(good, &fields.join(",")),
        )
    };
    wrong
        .flat_map(|wrong| (0..places).map(move |place| (wrong, place)))
        .map(|(wrong, place)| put(wrong, place))
        .collect()
}

fn field_counts(good: &str) -> Vec<Text> {
    let last = good.lines().last().unwrap_or("");
    let fewer = last.rsplit_once(',').map_or("", |(rest, _)| rest);
    vec![
        text("one field too few", with_last(good, fewer)),
        text("one field too many", with_last(good, &format!("{last},1"))),
        text("a comma at the end", with_last(good, &format!("{last},"))),
        text("commas alone", with_last(good, ",,")),
    ]
}

/// The text with its last line so often that it has this many lines below the heading.
pub fn lengthened(good: &str, count: usize) -> Text {
    let mut all = lines(good.as_bytes());
    let last = all.last().cloned().unwrap_or_default();
    all.resize(count + 1, last);
    text(format!("{count} lines"), all.concat())
}

#[cfg(test)]
mod tests {
    use super::*;

    const GOOD: &str = "class,length\n10,100\n20,100\n";
    const WITH_CR: &str = "class,length\r\n10,100\r\n20,100\r\n";

    #[test]
    fn names_are_distinct_and_nothing_stays_as_it_was() {
        for good in [GOOD, WITH_CR] {
            let texts = damaged(good);
            let names: std::collections::BTreeSet<_> = texts.iter().map(|t| &t.name).collect();
            assert_eq!(names.len(), texts.len());
            assert!(texts.iter().all(|text| text.bytes != good.as_bytes()));
        }
    }

    #[test]
    fn the_last_line_is_replaced_or_repeated() {
        assert_eq!(with_last(GOOD, "1"), "class,length\n10,100\n1\n");
        let with_cr = with_last(WITH_CR, "1");
        assert_eq!(with_cr, "class,length\r\n10,100\r\n1\r\n");
        let longer = lengthened(GOOD, 4).bytes;
        assert_eq!(longer, format!("{GOOD}20,100\n20,100\n").into_bytes());
    }
}
