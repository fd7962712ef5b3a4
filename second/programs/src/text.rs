//! Reading an event list: a heading line, then lines of decimal numbers, each with any line end.

use std::fmt;

const HEADING: &str = "class,length";
const COLUMNS: usize = 2;

/// Why a file's bytes cannot be read.
#[derive(Debug)]
pub struct Fault {
    /// Counted from 1.
    pub line: usize,
    pub what: String,
}

/// The classes and the lengths under the heading.
pub fn read_events(bytes: &[u8]) -> Result<[Vec<u32>; COLUMNS], Fault> {
    let mut columns = [Vec::new(), Vec::new()];
    let mut reader = Reader::default();
    reader.take(bytes, |_, numbers| {
        for (column, number) in columns.iter_mut().zip(numbers) {
            column.push(number);
        }
    })?;
    reader.end()?;
    Ok(columns)
}

/// A list that comes piece by piece.
#[derive(Default)]
pub struct Reader {
    /// Lines that have come whole.
    lines: usize,
    /// What has come of the next one.
    begun: Vec<u8>,
}

impl Reader {
    /// Takes a piece. The line's number and the class and length of each event that has come whole
    /// are handed on, up to the first fault.
    pub fn take(
        &mut self,
        piece: &[u8],
        mut hand_on: impl FnMut(usize, [u32; COLUMNS]),
    ) -> Result<(), Fault> {
        for part in piece.split_inclusive(|b| *b == b'\n') {
            self.begun.extend_from_slice(part);
            if let Some(body) = without_end(&self.begun) {
                let line = self.lines + 1;
                let read = match self.lines {
                    0 => check_heading(body),
                    _ => read_line(body).map(|numbers| hand_on(line, numbers)),
                };
                read.map_err(|what| Fault { line, what })?;
                self.begun.clear();
                self.lines = line;
            }
        }
        Ok(())
    }

    /// No more comes.
    pub fn end(&self) -> Result<(), Fault> {
        let ended = match (self.lines, &self.begun[..]) {
            (0, []) => check_heading(b""),
            (_, []) => Ok(()),
            _ => Err("the line has no end".to_string()),
        };
        let line = self.lines + 1;
        ended.map_err(|what| Fault { line, what })
    }
}

/// The line without its LF or CR LF; nothing if it has neither.
fn without_end(line: &[u8]) -> Option<&[u8]> {
    let body = line.strip_suffix(b"\n")?;
    Some(body.strip_suffix(b"\r").unwrap_or(body))
}

fn check_heading(body: &[u8]) -> Result<(), String> {
    if body != HEADING.as_bytes() {
        return Err(format!("the heading must be {HEADING}"));
    }
    Ok(())
}

fn read_line(body: &[u8]) -> Result<[u32; COLUMNS], String> {
    let fields: Vec<&[u8]> = body.split(|b| *b == b',').collect();
    if fields.len() != COLUMNS {
        return Err(format!("{COLUMNS} numbers are wanted"));
    }
    let mut numbers = [0; COLUMNS];
    for (index, (field, number)) in fields.iter().zip(&mut numbers).enumerate() {
        *number = read_number(field).map_err(|why| format!("field {} is {why}", index + 1))?;
    }
    Ok(numbers)
}

/// Why some bytes are no 32-bit number.
#[derive(Clone, Copy)]
pub enum NotRead {
    NotDecimal,
    TooLarge,
}

impl fmt::Display for NotRead {
    fn fmt(&self, to: &mut fmt::Formatter) -> fmt::Result {
        to.write_str(match self {
            NotRead::NotDecimal => "not a decimal number",
            NotRead::TooLarge => "over 4294967295",
        })
    }
}

pub fn read_number(field: &[u8]) -> Result<u32, NotRead> {
    if field.is_empty() || !field.iter().all(u8::is_ascii_digit) {
        return Err(NotRead::NotDecimal);
    }
    let mut number: u32 = 0;
    for digit in field {
        number = number
            .checked_mul(10)
            .and_then(|n| n.checked_add(u32::from(digit - b'0')))
            .ok_or(NotRead::TooLarge)?;
    }
    Ok(number)
}
