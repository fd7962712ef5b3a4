//! A fault of a table's text: its answer, and its sentence for a person.

use crate::answer::Answer;
use crate::csv::writer::TABLE_HEADING;

/// The first fault of a text.
#[derive(Clone, Copy, Debug, PartialEq, Eq)]
pub struct Fault {
    pub(super) number: u32,
    /// From 1, the heading's; 0 where the text is not looked at.
    pub(super) line: usize,
    /// The place of the faulty byte in the text, or of its end.
    pub(super) at: usize,
    /// From 1; 0 in the heading.
    pub(super) field: usize,
}

impl Fault {
    /// The text is longer than what is lent for it.
    pub const TOO_LONG: Fault = Fault {
        number: 40,
        line: 0,
        at: 0,
        field: 0,
    };

    pub fn answer(&self) -> Answer {
        Answer::refused(self.number, self.line)
    }

    /// What is wrong with this text, and what to mend, as the end of a sentence.
    pub fn sentence(&self, text: &[u8]) -> String {
        let Fault { line, field, .. } = self;
        match (self.number, text.get(self.at)) {
            (40, _) => "the text has more than 65536 bytes; no table has more than 4371: \
                        give it 2 to 256 rows."
                .to_string(),
            (41, Some(byte)) => heading(text, self.at + 1, *byte),
            (42, Some(byte)) => not_a_digit(*line, *field, *byte),
            (43, _) => format!("line {line} has a leading zero in field {field}; take it out."),
            (44, _) => format!(
                "line {line} has a number over 4294967295 in field {field}; \
                 identifiers go up to 65535 and shares up to 840."
            ),
            (45, Some(byte)) => field_count(*line, *field, *byte),
            (46, Some(byte)) => line_end(*line, *byte),
            _ if text.is_empty() => {
                format!("the text is empty; begin it with the heading {TABLE_HEADING}.")
            }
            _ => format!(
                "the text ends inside line {line}; \
                 end it with CR LF, and see that no line is missing."
            ),
        }
    }
}

/// `place` is that of the byte, from 1.
fn heading(text: &[u8], place: usize, byte: u8) -> String {
    if text.starts_with(b"\xef\xbb\xbf") {
        return "line 1 begins with a byte order mark; save the file without one.".to_string();
    }
    let marked = text.starts_with(b"\xff\xfe") || text.starts_with(b"\xfe\xff");
    if marked || byte == 0 {
        return "line 1 is UTF-16; save the file as UTF-8.".to_string();
    }
    let mend = mend(byte).unwrap_or("write the heading as it stands here");
    format!(
        "line 1 has {} at byte {place}, where the heading {TABLE_HEADING} has not; {mend}.",
        found(byte)
    )
}

fn not_a_digit(line: usize, field: usize, byte: u8) -> String {
    match byte {
        // Where a field has begun, these three are other faults.
        b'\r' | b'\n' if field == 1 => format!("line {line} is empty; take it out."),
        b',' | b'\r' | b'\n' => {
            format!(
                "line {line} has nothing in field {field}; give it a number, or take the line out."
            )
        }
        _ => {
            let mend = mend(byte).unwrap_or(match byte {
                b'+' | b'-' => "numbers have no sign",
                b'.' => "give it a whole number",
                b'%' => "a share is so many parts of 840, not per cent",
                _ => "give it a number in digits alone",
            });
            format!("line {line} has {} in field {field}; {mend}.", found(byte))
        }
    }
}

fn field_count(line: usize, field: usize, byte: u8) -> String {
    let said = match byte {
        b',' => format!("line {line} has more than three fields"),
        _ => format!("line {line} ends after field {field}"),
    };
    format!("{said}; give it three: identifier, parent and share.")
}

fn line_end(line: usize, byte: u8) -> String {
    match byte {
        b'\n' => format!(
            "line {line} ends in LF alone; lines end in CR LF: save it with Windows line ends, or put it through unix2dos."
        ),
        _ => format!(
            "line {line} has CR with no LF after it; a line ends in one CR and one LF: save it with Windows line ends."
        ),
    }
}

/// A byte, for a reader.
fn found(byte: u8) -> String {
    let name = match byte {
        b'\t' => "a tab",
        b'\n' => "LF",
        b'\r' => "CR",
        b' ' => "a blank",
        b'"' => "a quote",
        b',' => "a comma",
        b';' => "a semicolon",
        33..=126 => return format!("\"{}\"", char::from(byte)),
        _ => return format!("byte {byte}"),
    };
    name.to_string()
}

/// What to do about a byte that other forms of such lines have.
fn mend(byte: u8) -> Option<&'static str> {
    match byte {
        b'\t' | b';' => Some("separate the fields by commas"),
        b'"' => Some("write the fields without quotes"),
        b' ' => Some("take it out"),
        _ => None,
    }
}
