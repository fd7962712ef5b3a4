//! Captures in the classic layout, with the table and the numbers they are replayed with: as
//! numbers and as bytes.

mod damage;
#[cfg(test)]
mod model;
mod traffic;

use std::fmt;

use second::MOST_EVENTS;

use crate::{CaptureFile, Case, Files, Row};

pub use damage::{damage_capture, damage_capture_twice, number_pairs};
pub use traffic::{random_capture, Pace, PACES};

/// Bytes of the file's header, of a record's, and of the shortest header of a packet.
pub const FILE_HEADER: usize = 24;
pub const RECORD_HEADER: usize = 16;
pub const PACKET_HEADER: usize = 20;

/// Each record is an arrival and a finish.
pub const MOST_RECORDS: usize = MOST_EVENTS / 2;

/// Bytes that a capture's file has at most.
pub const MOST_CAPTURE: usize = 4_194_304;

const VERSION: [u16; 2] = [2, 4];
const RAW_IP: u32 = 101;

/// Microseconds of a second.
const IN_SECOND: u64 = 1_000_000;

/// How words and stamps are stored.
#[derive(Clone, Copy, Debug, PartialEq, Eq)]
pub struct Layout {
    /// Whether the high byte of a word comes first.
    pub high_first: bool,
    /// Whether fractions of a second are nanoseconds and not microseconds.
    pub nano: bool,
}

pub const LAYOUTS: [Layout; 4] = [
    layout(false, false),
    layout(false, true),
    layout(true, false),
    layout(true, true),
];

const fn layout(high_first: bool, nano: bool) -> Layout {
    Layout { high_first, nano }
}

impl Layout {
    pub fn magic(self) -> u32 {
        match self.nano {
            true => 0xa1b2_3c4d,
            false => 0xa1b2_c3d4,
        }
    }

    /// What a fraction counts in a microsecond.
    pub fn in_microsecond(self) -> u32 {
        match self.nano {
            true => 1000,
            false => 1,
        }
    }

    pub fn word(self, word: u32) -> [u8; 4] {
        match self.high_first {
            true => word.to_be_bytes(),
            false => word.to_le_bytes(),
        }
    }

    fn read_word(self, bytes: &[u8]) -> Option<u32> {
        let word = bytes.first_chunk().copied()?;
        Some(match self.high_first {
            true => u32::from_be_bytes(word),
            false => u32::from_le_bytes(word),
        })
    }

    fn half(self, half: u16) -> [u8; 2] {
        match self.high_first {
            true => half.to_be_bytes(),
            false => half.to_le_bytes(),
        }
    }

    /// The layout that the magic number of these bytes says.
    pub fn of(bytes: &[u8]) -> Option<Layout> {
        let begins = |layout: &Layout| bytes.starts_with(&layout.word(layout.magic()));
        LAYOUTS.into_iter().find(begins)
    }

    /// A record at this microsecond whose packet has the shortest header and no more.
    pub fn record(self, stamp: u64, original: u32, code_point: u8) -> Record {
        let mut packet = vec![0; PACKET_HEADER];
        packet[..2].copy_from_slice(&[0x45, code_point << 2]);
        Record {
            seconds: (stamp / IN_SECOND) as u32,
            fraction: (stamp % IN_SECOND) as u32 * self.in_microsecond(),
            included: packet.len() as u32,
            original,
            packet,
        }
    }
}

impl fmt::Display for Layout {
    fn fmt(&self, to: &mut fmt::Formatter) -> fmt::Result {
        let first = if self.high_first { "high" } else { "low" };
        let unit = if self.nano { "nano" } else { "micro" };
        write!(to, "{first} byte first, {unit}seconds")
    }
}

#[derive(Clone, Debug, PartialEq, Eq)]
pub struct Record {
    pub seconds: u32,
    pub fraction: u32,
    /// What the header says of the bytes below.
    pub included: u32,
    pub original: u32,
    pub packet: Vec<u8>,
}

impl Record {
    /// Microseconds, rounded down.
    pub fn stamp(&self, layout: Layout) -> u64 {
        u64::from(self.seconds) * IN_SECOND + u64::from(self.fraction / layout.in_microsecond())
    }

    /// Which of the three classes named its packet, which has a header, is for.
    fn class(&self) -> usize {
        class_of(self.packet[1] >> 2)
    }

    fn bytes(&self, layout: Layout) -> Vec<u8> {
        let words = [self.seconds, self.fraction, self.included, self.original];
        let header = words.map(|word| layout.word(word)).concat();
        [header, self.packet.clone()].concat()
    }
}

#[derive(Clone, Debug, PartialEq, Eq)]
pub struct Capture {
    pub layout: Layout,
    pub magic: u32,
    pub version: [u16; 2],
    /// Time zone, accuracy and snap length, which nobody looks at.
    pub unread: [u32; 3],
    pub link: u32,
    pub records: Vec<Record>,
    /// Bytes of the file at most; those after them are cut off.
    pub most: usize,
}

impl Capture {
    pub fn new(layout: Layout, records: Vec<Record>) -> Capture {
        Capture {
            layout,
            magic: layout.magic(),
            version: VERSION,
            unread: [0, 0, 65_535],
            link: RAW_IP,
            records,
            most: usize::MAX,
        }
    }

    /// Where the header of this record begins.
    pub fn offset(&self, record: usize) -> usize {
        let before = self.records.iter().take(record);
        FILE_HEADER
            + before
                .map(|r| RECORD_HEADER + r.packet.len())
                .sum::<usize>()
    }

    pub fn bytes(&self) -> Vec<u8> {
        let mut bytes = self.layout.word(self.magic).to_vec();
        for half in self.version {
            bytes.extend(self.layout.half(half));
        }
        for word in self.unread.into_iter().chain([self.link]) {
            bytes.extend(self.layout.word(word));
        }
        for record in &self.records {
            bytes.extend(record.bytes(self.layout));
        }
        bytes.truncate(self.most);
        bytes
    }
}

/// The file's header, each record, and at the end what is no whole one.
pub fn parts(bytes: &[u8]) -> Vec<Vec<u8>> {
    let layout = Layout::of(bytes).unwrap_or(LAYOUTS[0]);
    let mut parts = Vec::new();
    let mut rest = bytes;
    let mut length = FILE_HEADER;
    while let Some((part, after)) = rest.split_at_checked(length).filter(|_| !rest.is_empty()) {
        parts.push(part.to_vec());
        rest = after;
        let included = rest.get(8..).and_then(|bytes| layout.read_word(bytes));
        length = RECORD_HEADER + included.unwrap_or(0) as usize;
    }
    if !rest.is_empty() {
        parts.push(rest.to_vec());
    }
    parts
}

/// Which of the three classes named a code point goes to.
pub fn class_of(code_point: u8) -> usize {
    match code_point {
        46 | 48..=63 => 0,
        8..=39 => 1,
        _ => 2,
    }
}

/// Microseconds that a packet of this length takes.
pub fn time(length: u32, rate: u32) -> u64 {
    (u64::from(length) * IN_SECOND).div_ceil(u64::from(rate))
}

/// A capture with all that it is replayed with.
#[derive(Clone, Debug, PartialEq, Eq)]
pub struct CaptureCase {
    pub capture: Capture,
    pub rows: Vec<Row>,
    /// FIRST, SECOND and THIRD.
    pub classes: [u32; 3],
    pub rate: u32,
}

impl CaptureCase {
    pub fn files(&self) -> Files {
        let table = Case {
            rows: self.rows.clone(),
            events: Vec::new(),
        };
        let numbers = self.classes.into_iter().chain([self.rate]);
        Files {
            table: Some(table.table_text().into_bytes()),
            capture: Some(CaptureFile {
                bytes: Some(self.capture.bytes()),
                numbers: numbers.map(|number| number.to_string().into()).collect(),
            }),
            ..Files::default()
        }
    }
}

#[cfg(test)]
mod tests {
    use super::*;

    #[test]
    fn words_stand_where_the_layout_has_them() {
        let record = |layout: Layout| layout.record(3 * IN_SECOND + 5, 0x0102_0304, 46);
        let bytes = |layout| Capture::new(layout, vec![record(layout)]).bytes();
        let low = bytes(LAYOUTS[0]);
        assert_eq!(low.len(), 60);
        assert_eq!(low[..8], [0xd4, 0xc3, 0xb2, 0xa1, 2, 0, 4, 0]);
        assert_eq!(low[16..24], [0xff, 0xff, 0, 0, 101, 0, 0, 0]);
        assert_eq!(
            low[24..40],
            [3, 0, 0, 0, 5, 0, 0, 0, 20, 0, 0, 0, 4, 3, 2, 1]
        );
        assert_eq!(low[40..43], [0x45, 46 << 2, 0]);
        let high = bytes(LAYOUTS[3]);
        assert_eq!(high[..8], [0xa1, 0xb2, 0x3c, 0x4d, 0, 2, 0, 4]);
        assert_eq!(high[28..32], 5000_u32.to_be_bytes());
        for layout in LAYOUTS {
            assert_eq!(Layout::of(&bytes(layout)), Some(layout));
            assert_eq!(record(layout).stamp(layout), 3_000_005);
        }
    }

    #[test]
    fn parts_are_the_header_the_records_and_the_rest() {
        for layout in LAYOUTS {
            let records = [0, 1, 2].map(|stamp| layout.record(stamp, 1, 0)).to_vec();
            let mut capture = Capture::new(layout, records);
            let lengths = |capture: &Capture| {
                let parts = parts(&capture.bytes());
                assert_eq!(parts.concat(), capture.bytes());
                parts.iter().map(Vec::len).collect::<Vec<usize>>()
            };
            assert_eq!(lengths(&capture), [24, 36, 36, 36]);
            assert_eq!(capture.offset(2), 24 + 2 * 36);
            capture.records[1].included = u32::MAX;
            assert_eq!(lengths(&capture), [24, 36, 72]);
            capture.most = 24 + 36 + 15;
            assert_eq!(lengths(&capture), [24, 36, 15]);
            capture.most = 23;
            assert_eq!(lengths(&capture), [23]);
            capture.most = 0;
            assert_eq!(lengths(&capture), []);
        }
    }
}
