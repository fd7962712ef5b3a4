//! Tables' texts with a fault of each number.

use second::program::MOST_TEXT;

use crate::faults::{NOT_DIGITS, TOO_LARGE};
use crate::{lines, Files, Random};

/// All faults of a table's text.
pub const TEXT_FAULTS: [u32; 8] = [40, 41, 42, 43, 44, 45, 46, 47];

/// Bytes of the heading.
const HEADING: usize = 23;

const WRONG_HEADINGS: [&[u8]; 8] = [
    b"identifier;parent;share\r\n",
    b"identifier\tparent\tshare\r\n",
    b"\"identifier\",\"parent\",\"share\"\r\n",
    b"identifier,\"parent\",share\r\n",
    b"identifier,parent,share,\r\n",
    b"identifier,parent,share \r\n",
    b"identifier,parent\r\n",
    b"class,length\r\n",
];

/// What a text that is too long is filled up with.
const FILLERS: [&[u8]; 5] = [b"1,0,0\r\n", b"\r\n", b"0", b"x", b"\0"];

/// Puts a fault of this number into the table, which must be an accepted one.
pub fn put_in_table(files: &mut Files, number: u32, random: &mut Random) {
    let Some(text) = &mut files.table else {
        return;
    };
    match number {
        40 => too_long(text, random),
        41 => heading(text, random),
        46 => line_end(text, random),
        47 => cut(text, random),
        42 if random.one_in(4) => blank_line(text, random),
        _ => row(text, number, random),
    }
}

fn too_long(text: &mut Vec<u8>, random: &mut Random) {
    if random.one_in(3) {
        heading(text, random);
    }
    let filler = random.pick(&FILLERS);
    let more = [1, 1, 2, random.between(3, 100_000)];
    let length = MOST_TEXT + random.pick(&more);
    while text.len() < length {
        text.extend(filler);
    }
    text.truncate(length);
}

fn heading(text: &mut Vec<u8>, random: &mut Random) {
    let place = random.below(HEADING);
    let byte = random.below(256) as u8;
    match random.below(8) {
        0 => drop(text.splice(..0, *b"\xef\xbb\xbf")),
        1 => *text = in_16_bits(text, random),
        2 | 3 => drop(text.splice(..HEADING + 2, random.pick(&WRONG_HEADINGS).to_vec())),
        4 => drop(text.remove(place)),
        // Neither of the bytes of a line end.
        5 => text.insert(HEADING, random.pick(b" ,;\tx\0\"\xff")),
        _ => text[place] = if text[place] == byte { b'_' } else { byte },
    }
}

/// UTF-16, with or without its mark.
fn in_16_bits(text: &[u8], random: &mut Random) -> Vec<u8> {
    let mark = random.one_in(2).then_some(0xfeff);
    let words = mark.into_iter().chain(text.iter().map(|b| u16::from(*b)));
    let to = random.pick(&[u16::to_le_bytes, u16::to_be_bytes]);
    words.flat_map(to).collect()
}

fn blank_line(text: &mut Vec<u8>, random: &mut Random) {
    let mut parts = lines(text);
    let place = random.between(1, parts.len());
    parts.insert(place, random.pick(&[&b"\r\n"[..], b"\n", b"\r"]).to_vec());
    *text = parts.concat();
}

/// Ends a line in another way, or all of them.
fn line_end(text: &mut Vec<u8>, random: &mut Random) {
    let mut parts = lines(text);
    // After the last line a CR alone would be the end of the text.
    let line = random.below(parts.len() - 1);
    let end = random.pick(&[&b"\n"[..], b"\n", b"\r", b"\r\r\n", b"\r \n", b"\n\r"]);
    let first = if random.one_in(4) { 0 } else { line };
    for part in &mut parts[first..=line] {
        part.truncate(part.len() - 2);
        part.extend(end);
    }
    *text = parts.concat();
}

/// Cuts the text off inside some line.
fn cut(text: &mut Vec<u8>, random: &mut Random) {
    let inside = |place: &usize| *place == 0 || text[*place - 1] != b'\n';
    let places: Vec<usize> = (0..text.len()).filter(inside).collect();
    let place = match random.below(8) {
        0 => 0,
        1 => text.len() - 1,
        _ => random.pick(&places),
    };
    text.truncate(place);
}

/// A fault of some row's fields.
fn row(text: &mut Vec<u8>, number: u32, random: &mut Random) {
    let mut parts = lines(text);
    let line = random.between(1, parts.len() - 1);
    let body = &parts[line][..parts[line].len() - 2];
    let mut fields: Vec<Vec<u8>> = body.split(|b| *b == b',').map(<[u8]>::to_vec).collect();
    let field = random.below(fields.len());
    let mut between = b",";
    match number {
        42 => match random.below(8) {
            0 => between = random.pick(&[b";", b"\t", b" ", b"|"]),
            1 => fields[field].extend(b"%"),
            2 => fields[field] = [b"\"", &fields[field][..], b"\""].concat(),
            _ => fields[field] = random.pick(&NOT_DIGITS).to_vec(),
        },
        43 => drop(fields[field].splice(..0, vec![b'0'; random.between(1, 30)])),
        44 => fields[field] = too_large(random),
        _ => match random.below(4) {
            0 => fields.push(Vec::new()),
            1 => fields.insert(field, b"1".to_vec()),
            2 => drop(fields.remove(field)),
            _ => fields.truncate(1),
        },
    }
    parts[line] = [&fields.join(&between[..])[..], b"\r\n"].concat();
    *text = parts.concat();
}

/// A number over 32 bits without leading zeros.
fn too_large(random: &mut Random) -> Vec<u8> {
    let plain: Vec<&[u8]> = TOO_LARGE
        .into_iter()
        .filter(|number| !number.starts_with(b"0"))
        .collect();
    random.pick(&plain).to_vec()
}

#[cfg(test)]
mod tests {
    use std::collections::BTreeSet;

    use super::*;
    use crate::{random_table, Case, Shape};
    use second::{read_table, Answer, TableRoom};

    /// What reading answers to a random table with a fault of this number.
    fn answer(number: u32, list: u64) -> Answer {
        let mut random = Random::new(5, list);
        let rows = random_table(Shape::Any, 840, &mut random);
        let events = Vec::new();
        let mut files = Files::of(&Case { rows, events });
        put_in_table(&mut files, number, &mut random);
        let text = files.table.expect("there is a table");
        let room = TableRoom {
            identifiers: &mut [],
            parents: &mut [],
            shares: &mut [],
        };
        read_table(&text[..text.len().min(MOST_TEXT)], text.len(), room)
    }

    #[test]
    fn each_fault_has_its_number() {
        for number in TEXT_FAULTS {
            for list in 0..400 {
                assert_eq!(answer(number, list).number, number, "{list}");
            }
        }
    }

    #[test]
    fn faults_come_on_many_lines() {
        for number in [42, 43, 44, 45, 46, 47] {
            let places = (0..400).map(|list| answer(number, list).place);
            let places: BTreeSet<u32> = places.collect();
            assert!(places.len() > 10, "{number} on {places:?}");
        }
    }
}
