//! Captures written byte by byte, and replaying them with a look at every lent word.

use second::capture::{replay, Capture};
use second::{Answer, EventRoom, Room};

use super::{filled, marked, Columns, Event, Row};

/// Stamp in microseconds, code point, original length.
pub type Record = (u64, u8, u32);

/// Code points of the first, the second and the third class.
pub const FIRST: u8 = 46;
pub const SECOND: u8 = 8;
pub const THIRD: u8 = 0;

/// A rate at which a packet takes as many microseconds as it has bytes.
pub const EVEN: u32 = 1_000_000;

/// How a capture writes its numbers.
#[derive(Clone, Copy, Debug)]
pub struct Form {
    pub lowest_first: bool,
    pub nanoseconds: bool,
}

pub const MICRO: Form = Form {
    lowest_first: true,
    nanoseconds: false,
};

pub const NANO: Form = Form {
    lowest_first: true,
    nanoseconds: true,
};

pub const FORMS: [Form; 4] = [
    MICRO,
    NANO,
    Form {
        lowest_first: false,
        ..MICRO
    },
    Form {
        lowest_first: false,
        ..NANO
    },
];

impl Form {
    /// The number in so many bytes.
    pub fn bytes(&self, number: u32, count: usize) -> Vec<u8> {
        let mut bytes = number.to_le_bytes()[..count].to_vec();
        if !self.lowest_first {
            bytes.reverse();
        }
        bytes
    }

    /// A file header with this version and link type; what is not looked at is not 0.
    pub fn header(&self, version: [u32; 2], link_type: u32) -> Vec<u8> {
        let magic = match self.nanoseconds {
            true => 0xa1b2_3c4d,
            false => 0xa1b2_c3d4,
        };
        [
            self.bytes(magic, 4),
            self.bytes(version[0], 2),
            self.bytes(version[1], 2),
            vec![0xee; 12],
            self.bytes(link_type, 4),
        ]
        .concat()
    }

    /// A record that includes these bytes of its packet.
    pub fn record(&self, stamp: [u32; 2], length: u32, packet: &[u8]) -> Vec<u8> {
        let included = packet.len() as u32;
        let header = [stamp[0], stamp[1], included, length].map(|n| self.bytes(n, 4));
        [&header.concat(), packet].concat()
    }

    /// A whole capture.
    pub fn capture(&self, records: &[Record]) -> Vec<u8> {
        let mut bytes = self.header([2, 4], 101);
        for (stamp, code_point, length) in records {
            let part = (stamp % 1_000_000) as u32;
            let part = if self.nanoseconds { part * 1_000 } else { part };
            let stamp = [(stamp / 1_000_000) as u32, part];
            bytes.extend(self.record(stamp, *length, &packet(*code_point)));
        }
        bytes
    }
}

/// An IPv4 header without options; what is not looked at is not 0.
pub fn packet(code_point: u8) -> [u8; 20] {
    let mut packet = [0xee; 20];
    packet[0] = 0x45;
    packet[1] = (code_point << 2) | 3;
    packet
}

/// The bytes with classes 10, 20 and 20 and an even rate, as suits `HALVES`.
pub fn even(bytes: &[u8]) -> Capture<'_> {
    Capture {
        bytes,
        classes: [10, 20, 20],
        rate: EVEN,
    }
}

/// What is lent for a replay.
#[derive(Clone, Debug, PartialEq, Eq)]
pub struct Slices {
    pub classes: Vec<u32>,
    pub lengths: Vec<u32>,
    pub room: Room,
}

impl Slices {
    /// Slices with so many spare words, filled with numbers that no replay writes.
    pub fn marked(rows: usize, records: usize, spare: usize) -> Slices {
        Slices {
            classes: filled(2 * records + spare, 2_000_000_000),
            lengths: filled(2 * records + spare, 1_000_000_000),
            room: marked(rows, 2 * records, spare),
        }
    }

    pub fn replay(&mut self, capture: Capture, table: &Columns) -> Answer {
        let list = EventRoom {
            classes: &mut self.classes,
            lengths: &mut self.lengths,
        };
        replay(capture, table.table(), list, self.room.lend())
    }
}

/// Replays what must be refused over these slices; gives number, place and second place.
pub fn refused_over(slices: &Slices, capture: Capture, table: &Columns) -> (u32, u32, u32) {
    let mut after = slices.clone();
    let answer = after.replay(capture, table);
    assert_ne!(answer.number, 0);
    assert_eq!(answer.count, 0);
    assert_eq!(&after, slices);
    (answer.number, answer.place, answer.second)
}

/// Replays a capture that must be refused, over slices long enough.
pub fn refused_capture(capture: Capture, rows: &[Row]) -> (u32, u32, u32) {
    let slices = Slices::marked(rows.len(), capture.bytes.len() / 36, 3);
    refused_over(&slices, capture, &Columns::new(rows, &[]))
}

/// The list that an accepted capture makes. All else that it leaves must be what a run over that
/// list leaves.
pub fn accepted_capture(capture: Capture, rows: &[Row]) -> Vec<Event> {
    let before = Slices::marked(rows.len(), capture.bytes.len() / 36, 3);
    let mut after = before.clone();
    let answer = after.replay(capture, &Columns::new(rows, &[]));
    assert_eq!((answer.number, answer.place, answer.second), (0, 0, 0));
    let events = 2 * answer.count as usize;
    assert_eq!(after.classes[events..], before.classes[events..]);
    assert_eq!(after.lengths[events..], before.lengths[events..]);
    let words = after.classes.iter().zip(&after.lengths).take(events);
    let list: Vec<Event> = words.map(|(class, length)| (*class, *length)).collect();
    let mut room = before.room;
    assert_eq!(Columns::new(rows, &list).run(&mut room), answer);
    assert_eq!(after.room, room);
    list
}
