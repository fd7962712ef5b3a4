//! The records of a capture, their packets as parts of its own bytes, and refusals 35 to 38.

use crate::capture::layout::{Layout, FILE_HEADER};
use crate::capture::refusals::{RecordFault, Refusal};

const RECORD_HEADER: usize = 16;

/// Bytes of an IPv4 header without options, which is also the least that it has.
const IPV4_HEADER: usize = 20;
const IPV4_WORDS: u8 = 5;

/// Where a record stands.
#[derive(Clone, Copy)]
pub struct Place {
    /// Counted from 0.
    pub record: usize,
    /// The byte of the capture that its header begins with.
    pub byte: usize,
}

pub struct Record<'a> {
    pub place: Place,
    /// In microseconds, rounded down.
    pub stamp: u64,
    /// Of the packet as it was on the wire; the capture may have less of it.
    pub length: u32,
    /// What the capture has of the packet, its IPv4 header at least.
    pub packet: &'a [u8],
}

impl Record<'_> {
    /// The upper six bits of the header's second byte.
    pub fn code_point(&self) -> u8 {
        self.packet[1] >> 2
    }
}

/// All records, or the first cause to refuse the capture.
pub fn read(capture: &[u8]) -> Result<Vec<Record<'_>>, Refusal> {
    let layout = Layout::read(capture).map_err(Refusal::Header)?;
    let mut records: Vec<Record> = Vec::new();
    let mut byte = FILE_HEADER;
    while byte < capture.len() {
        let place = Place {
            record: records.len(),
            byte,
        };
        let record = read_record(&layout, place, &capture[byte..])
            .and_then(|record| check_stamp(records.last(), record))
            .map_err(|fault| Refusal::Record { place, fault })?;
        byte += RECORD_HEADER + record.packet.len();
        records.push(record);
    }
    Ok(records)
}

/// The record that these bytes begin with.
fn read_record<'a>(
    layout: &Layout,
    place: Place,
    bytes: &'a [u8],
) -> Result<Record<'a>, RecordFault> {
    let (header, rest) = bytes
        .split_first_chunk::<RECORD_HEADER>()
        .ok_or(RecordFault::Header { left: bytes.len() })?;
    let [seconds, part, included, length] =
        [0, 4, 8, 12].map(|at| layout.number(&header[at..at + 4]));
    let packet = rest.get(..included as usize).ok_or(RecordFault::Cut {
        included,
        left: rest.len(),
    })?;
    check_ipv4(packet)?;
    Ok(Record {
        place,
        stamp: layout.stamp(seconds, part),
        length,
        packet,
    })
}

/// Refusal 37.
fn check_ipv4(packet: &[u8]) -> Result<(), RecordFault> {
    let Some([first, ..]) = packet.first_chunk::<IPV4_HEADER>() else {
        return Err(RecordFault::Short {
            included: packet.len(),
        });
    };
    let (version, words) = (first >> 4, first & 15);
    if version != 4 {
        return Err(RecordFault::Version { version });
    }
    if words < IPV4_WORDS {
        return Err(RecordFault::Words { words });
    }
    Ok(())
}

/// The record, or refusal 38 where the one before it has a later stamp.
fn check_stamp<'a>(before: Option<&Record>, record: Record<'a>) -> Result<Record<'a>, RecordFault> {
    match before {
        Some(before) if before.stamp > record.stamp => Err(RecordFault::Back {
            microseconds: before.stamp - record.stamp,
        }),
        _ => Ok(record),
    }
}
