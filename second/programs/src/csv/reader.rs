//! Reading a table's text byte by byte, up to its first fault.

use crate::csv::faults::Fault;
use crate::csv::writer::TABLE_HEADING;
use crate::slices::TableSlices;

/// The numbers under the heading, column by column.
#[derive(Debug, Default)]
pub struct Columns {
    pub identifiers: Vec<u32>,
    pub parents: Vec<u32>,
    pub shares: Vec<u32>,
}

impl Columns {
    pub fn slices(&self) -> TableSlices<'_> {
        TableSlices {
            identifiers: &self.identifiers,
            parents: &self.parents,
            shares: &self.shares,
        }
    }
}

/// Reads the text in the first `length` of the bytes that are lent for it.
pub fn read(bytes: &[u8], length: usize) -> Result<Columns, Fault> {
    let text = bytes.get(..length).ok_or(Fault::TOO_LONG)?;
    let mut reader = Reader {
        text,
        at: 0,
        line: 1,
        field: 0,
    };
    let mut columns = Columns::default();
    reader.heading()?;
    while reader.at < text.len() {
        columns.identifiers.push(reader.field(1)?);
        columns.parents.push(reader.field(2)?);
        columns.shares.push(reader.field(3)?);
        reader.line_feed()?;
    }
    Ok(columns)
}

const FIELDS: usize = 3;

/// How far the text has been read.
struct Reader<'a> {
    text: &'a [u8],
    /// The byte that is looked at.
    at: usize,
    line: usize,
    /// The field that is being read; 0 in the heading.
    field: usize,
}

impl Reader<'_> {
    /// The fault with this number at the byte that is looked at.
    fn fault(&self, number: u32) -> Fault {
        Fault {
            number,
            line: self.line,
            at: self.at,
            field: self.field,
        }
    }

    /// The byte that is looked at. The text may end only where this is not asked.
    fn byte(&self) -> Result<u8, Fault> {
        self.text.get(self.at).copied().ok_or(self.fault(47))
    }

    /// The heading with its line end.
    fn heading(&mut self) -> Result<(), Fault> {
        for wanted in TABLE_HEADING.bytes() {
            if self.byte()? != wanted {
                return Err(self.fault(41));
            }
            self.at += 1;
        }
        match self.byte()? {
            b'\r' => self.at += 1,
            b'\n' => return Err(self.fault(46)),
            _ => return Err(self.fault(41)),
        }
        self.line_feed()
    }

    /// The LF that must follow the CR at a line's end.
    fn line_feed(&mut self) -> Result<(), Fault> {
        if self.byte()? != b'\n' {
            return Err(self.fault(46));
        }
        self.at += 1;
        self.line += 1;
        Ok(())
    }

    /// The number of this field, and the comma or CR that ends it.
    fn field(&mut self, field: usize) -> Result<u32, Fault> {
        self.field = field;
        let number = self.number()?;
        match self.byte()? {
            b',' if field < FIELDS => {}
            b'\r' if field == FIELDS => {}
            b',' | b'\r' => return Err(self.fault(45)),
            b'\n' => return Err(self.fault(46)),
            _ => return Err(self.fault(42)),
        }
        self.at += 1;
        Ok(number)
    }

    /// The digits here, of which there must be one; stops at the first byte that is none.
    fn number(&mut self) -> Result<u32, Fault> {
        let mut number = digit(self.byte()?).ok_or(self.fault(42))?;
        self.at += 1;
        while let Some(digit) = digit(self.byte()?) {
            // Only a leading zero leaves 0 with a further digit to come.
            if number == 0 {
                return Err(self.fault(43));
            }
            number = number
                .checked_mul(10)
                .and_then(|n| n.checked_add(digit))
                .ok_or(self.fault(44))?;
            self.at += 1;
        }
        Ok(number)
    }
}

fn digit(byte: u8) -> Option<u32> {
    char::from(byte).to_digit(10)
}
