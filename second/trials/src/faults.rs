//! Faults of the text form: what makes a list one that cannot be read, and a table faulty or not
//! there.

use crate::{lines, Files, Random};

/// What the two files must begin with.
const HEADINGS: [&[u8]; 2] = [b"identifier,parent,share\r\n", b"class,length\n"];

const WRONG_HEADINGS: [&[u8]; 10] = [
    b"\n",
    b"identifier,parent\n",
    b"class,length,\n",
    b"Class,length\n",
    b"identifier, parent, share\n",
    b"\xef\xbb\xbfidentifier,parent,share\n",
    b" class,length\n",
    b"class,length \n",
    b"class,length\r\r\n",
    b"1,0,0\n",
];

pub const NOT_DIGITS: [&[u8]; 16] = [
    b"",
    b"+1",
    b"-1",
    b" 1",
    b"1 ",
    b"\t1",
    b"1x",
    b"x",
    b"0x1",
    b"1e3",
    b"1.0",
    b"1_0",
    b"\"1\"",
    b"1\0",
    b"\xff\xfe",
    b"\xd9\xa1",
];

pub const TOO_LARGE: [&[u8]; 7] = [
    b"4294967296",
    b"4294967396",
    b"04294967296",
    b"9999999999",
    b"18446744073709551617",
    b"340282366920938463463374607431768211457",
    b"99999999999999999999999999999999999999999999999999",
];

#[derive(Clone, Copy, Debug, PartialEq, Eq)]
pub enum Fault {
    NoHeading,
    WrongHeading,
    EmptyFile,
    NoEnd,
    CutLine,
    FewFields,
    ManyFields,
    BlankLine,
    NotDigits,
    TooLarge,
    DoubledCr,
    CrAlone,
    Missing,
    /// This one and those below may leave a file that can be read.
    Two,
    CutAnywhere,
    ByteChanged,
    ByteDropped,
    ByteAdded,
}

pub const FAULTS: [Fault; 18] = [
    Fault::NoHeading,
    Fault::WrongHeading,
    Fault::EmptyFile,
    Fault::NoEnd,
    Fault::CutLine,
    Fault::FewFields,
    Fault::ManyFields,
    Fault::BlankLine,
    Fault::NotDigits,
    Fault::TooLarge,
    Fault::DoubledCr,
    Fault::CrAlone,
    Fault::Missing,
    Fault::Two,
    Fault::CutAnywhere,
    Fault::ByteChanged,
    Fault::ByteDropped,
    Fault::ByteAdded,
];

/// So many of them always make a file that is not accepted.
const SURE: usize = 13;

/// Puts the fault into one of the two files; for a sheet, into the table.
pub fn put_in(files: &mut Files, fault: Fault, random: &mut Random) {
    if fault == Fault::Two {
        put_in(files, random.pick(&FAULTS[..SURE]), random);
        return put_in(files, random.pick(&FAULTS[..SURE]), random);
    }
    let which = match files.sheet {
        Some(_) => 0,
        None => random.below(2),
    };
    let file = match which {
        0 => &mut files.table,
        _ => &mut files.events,
    };
    match (file, fault) {
        (file, Fault::Missing) => *file = None,
        (Some(bytes), _) => put_in_text(bytes, HEADINGS[which], fault, random),
        (None, _) => {}
    }
}

/// Puts the fault into a list, unless it is that there is none.
pub fn put_in_list(list: &mut Vec<u8>, fault: Fault, random: &mut Random) {
    put_in_text(list, HEADINGS[1], fault, random);
}

fn put_in_text(bytes: &mut Vec<u8>, heading: &[u8], fault: Fault, random: &mut Random) {
    match fault {
        Fault::Missing | Fault::Two => {}
        Fault::EmptyFile => bytes.clear(),
        Fault::CutAnywhere => bytes.truncate(random.below(bytes.len() + 1)),
        Fault::ByteChanged | Fault::ByteDropped | Fault::ByteAdded => {
            byte_fault(bytes, fault, random);
        }
        _ => {
            let mut parts = lines(bytes);
            line_fault(&mut parts, heading, fault, random);
            *bytes = parts.concat();
        }
    }
}

fn byte_fault(bytes: &mut Vec<u8>, fault: Fault, random: &mut Random) {
    let common = b"0123456789,,,\n\n\r\r -";
    let byte = match random.one_in(4) {
        true => random.below(256) as u8,
        false => random.pick(common),
    };
    let place = random.below(bytes.len() + 1);
    match fault {
        Fault::ByteAdded => bytes.insert(place, byte),
        _ if place == bytes.len() => {}
        Fault::ByteChanged => bytes[place] = byte,
        _ => drop(bytes.remove(place)),
    }
}

fn line_fault(parts: &mut Vec<Vec<u8>>, heading: &[u8], fault: Fault, random: &mut Random) {
    let any = random.below(parts.len().max(1));
    match fault {
        Fault::NoHeading if parts.len() > 1 => drop(parts.remove(0)),
        Fault::NoHeading | Fault::WrongHeading => wrong_heading(parts, heading, random),
        Fault::BlankLine => {
            let place = random.between(1, parts.len().max(1)).min(parts.len());
            parts.insert(place, random.pick(&[&b"\n"[..], b"\r\n"]).to_vec());
        }
        Fault::NoEnd => {
            if let Some(line) = parts.last_mut() {
                line.pop();
            }
        }
        Fault::CutLine => {
            parts.truncate(any + 1);
            if let Some(line) = parts.last_mut() {
                line.truncate(random.between(1, line.len().max(2) - 1));
            }
        }
        Fault::DoubledCr => insert_in_line(parts, any, b"\r\r"),
        Fault::CrAlone => {
            if let Some(line) = parts.get_mut(any) {
                line.pop();
                line.push(b'\r');
            }
        }
        _ => field_fault(parts, heading, fault, random),
    }
}

/// Puts these bytes before the LF of a line.
fn insert_in_line(parts: &mut [Vec<u8>], line: usize, bytes: &[u8]) {
    if let Some(line) = parts.get_mut(line) {
        line.pop();
        line.extend(bytes);
        line.push(b'\n');
    }
}

fn wrong_heading(parts: &mut Vec<Vec<u8>>, heading: &[u8], random: &mut Random) {
    let headings = WRONG_HEADINGS.into_iter().chain(HEADINGS);
    let wrong: Vec<&[u8]> = headings.filter(|h| *h != heading).collect();
    let wrong = random.pick(&wrong).to_vec();
    match parts.first_mut() {
        Some(line) => *line = wrong,
        None => parts.push(wrong),
    }
}

/// A fault in some field below the heading; puts a line in if there is none.
fn field_fault(parts: &mut Vec<Vec<u8>>, heading: &[u8], fault: Fault, random: &mut Random) {
    let wanted = heading.split(|b| *b == b',').count();
    if parts.len() < 2 {
        parts.resize(1, heading.to_vec());
        parts.push(
            [vec!["1"; wanted].join(","), "\n".to_string()]
                .concat()
                .into_bytes(),
        );
    }
    let line = random.between(1, parts.len() - 1);
    let body = parts[line].trim_ascii_end();
    let mut fields: Vec<Vec<u8>> = body.split(|b| *b == b',').map(<[u8]>::to_vec).collect();
    let field = random.below(fields.len());
    match fault {
        Fault::FewFields => drop(fields.remove(field)),
        Fault::ManyFields => fields.insert(field, random.pick(&[&b"1"[..], b""]).to_vec()),
        Fault::NotDigits => fields[field] = random.pick(&NOT_DIGITS).to_vec(),
        _ => fields[field] = random.pick(&TOO_LARGE).to_vec(),
    }
    let end = random.pick(&[&b"\n"[..], b"\r\n"]).to_vec();
    parts[line] = [fields.join(&b","[..]), end].concat();
}

#[cfg(test)]
mod tests {
    use std::ffi::OsString;
    use std::fs;

    use super::*;
    use crate::{random_events, random_table, Case, Folder, Shape};
    use second::program::Response;

    /// What the second program answers to these files.
    fn response(folder: &Folder, files: &Files) -> Response {
        let path = |name: &str, bytes: &Option<Vec<u8>>| -> OsString {
            let path = folder.path().join(name);
            match bytes {
                Some(bytes) => fs::write(&path, bytes).expect("the file can be written"),
                None => drop(fs::remove_file(&path)),
            }
            path.into_os_string()
        };
        let arguments = [path("table", &files.table), path("events", &files.events)];
        second::program::respond(&arguments)
    }

    fn list(number: u64, disguised: bool) -> (Files, Random) {
        let mut random = Random::new(4, number);
        let rows = random_table(Shape::Any, 840, &mut random);
        let most = random.below(20);
        let events = random_events(&rows, most, false, &mut random);
        let mut files = Files::of(&Case { rows, events });
        if disguised {
            files.disguise(&mut random);
        }
        (files, random)
    }

    /// Whether a text is answered with a fault of a table's.
    fn is_fault(said: &Response) -> bool {
        let begins = |n: u32| format!("answer,place,second,count\r\n{n},");
        let mut numbers = 40..=47;
        said.status == 1 && numbers.any(|n| said.output.starts_with(begins(n).as_bytes()))
    }

    #[test]
    fn each_fault_makes_a_list_that_cannot_be_read_or_a_table_that_is_faulty() {
        let folder = Folder::fresh("faults").expect("a folder can be made");
        for fault in &FAULTS[..SURE] {
            for number in 0..40 {
                let (mut files, mut random) = list(number, true);
                let before = files.table.clone();
                put_in(&mut files, *fault, &mut random);
                let said = response(&folder, &files);
                let right = match files.table != before && *fault != Fault::Missing {
                    true => is_fault(&said),
                    false => said.status == 2 && said.error.starts_with(b"cannot read "),
                };
                assert!(right, "{fault:?} {files:?}");
            }
        }
    }

    #[test]
    fn a_disguise_changes_nothing_that_is_printed() {
        let folder = Folder::fresh("disguise").expect("a folder can be made");
        let mut changed = 0;
        for number in 0..200 {
            let (plain, mut random) = list(number, false);
            let mut other = plain.clone();
            other.disguise(&mut random);
            changed += usize::from(other != plain);
            assert_eq!(response(&folder, &plain), response(&folder, &other));
        }
        assert!(changed > 50);
    }
}
