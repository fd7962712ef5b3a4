//! Why a capture is refused: the answer, and its sentence for a person.

use crate::answer::Answer;
use crate::capture::records::Place;
use crate::capture::MOST_RECORDS;
use crate::events::MOST_BYTES;
use crate::sentences::{not_sending_class, table_sentence};
use crate::slices::TableSlices;

/// A cause, with what its sentence names.
pub enum Refusal {
    Rate,
    Header(HeaderFault),
    Record {
        place: Place,
        fault: RecordFault,
    },
    Records {
        count: usize,
    },
    Event(EventFault),
    /// One that a run has too, in the same words.
    Run(Answer),
}

/// What is wrong with the file header.
pub enum HeaderFault {
    Short { bytes: usize },
    Magic { bytes: [u8; 4] },
    Version { major: u32, minor: u32 },
    LinkType { link_type: u32 },
}

/// What is wrong with a record.
pub enum RecordFault {
    /// Its header is not whole.
    Header { left: usize },
    /// It includes more than is there.
    Cut { included: u32, left: usize },
    /// It includes less than an IPv4 header.
    Short { included: usize },
    /// Its packet is of this IP version.
    Version { version: u8 },
    /// Its packet says that its header has so few words.
    Words { words: u8 },
    /// Its stamp is so far before that of the record above it.
    Back { microseconds: u64 },
}

/// A record whose arrival is refused.
pub struct EventFault {
    pub number: u32,
    /// The place of the arrival in the list.
    pub event: usize,
    pub place: Place,
    pub class: u32,
    pub length: u32,
    pub code_point: u8,
}

impl From<Answer> for Refusal {
    fn from(answer: Answer) -> Refusal {
        Refusal::Run(answer)
    }
}

impl Refusal {
    pub fn answer(&self) -> Answer {
        let (number, place) = match self {
            Refusal::Rate => (30, 0),
            Refusal::Header(fault) => (fault.number(), 0),
            Refusal::Record { place, fault } => (fault.number(), place.record),
            Refusal::Records { .. } => (2, 0),
            Refusal::Event(fault) => (fault.number, fault.event),
            Refusal::Run(answer) => return *answer,
        };
        Answer::refused(number, place)
    }

    /// How the sentence ends for the refusal of a capture over this table.
    pub fn sentence(&self, table: &TableSlices) -> String {
        match self {
            Refusal::Rate => "the rate is 0; give the bytes that the line carries in a second, \
                              from 1 to 4294967295."
                .to_string(),
            Refusal::Header(fault) => fault.said(),
            Refusal::Record { place, fault } => format!("{} {}", name(*place), fault.said()),
            Refusal::Records { count } => {
                format!("the capture has {count} records; give it at most {MOST_RECORDS}.")
            }
            Refusal::Event(fault) => fault.said(table),
            // Of the table or of what is lent; events have words of their own here.
            Refusal::Run(answer) => table_sentence(answer, table).unwrap_or_default(),
        }
    }
}

fn name(place: Place) -> String {
    format!("record {} (byte {})", place.record, place.byte)
}

impl HeaderFault {
    fn number(&self) -> u32 {
        match self {
            HeaderFault::Short { .. } => 31,
            HeaderFault::Magic { .. } => 32,
            HeaderFault::Version { .. } => 33,
            HeaderFault::LinkType { .. } => 34,
        }
    }

    fn said(&self) -> String {
        match self {
            HeaderFault::Short { bytes } => format!(
                "of the 24 bytes of a file header the capture has {bytes}; give a whole capture."
            ),
            HeaderFault::Magic {
                bytes: [a, b, c, d],
            } => format!(
                "the capture begins with the bytes {a}, {b}, {c}, {d} and not with a magic number \
                 of the classic layout; save it as pcap, say with editcap -F pcap."
            ),
            HeaderFault::Version { major, minor } => format!(
                "the capture is of version {major}.{minor} (byte 4); \
                 save it as version 2.4, say with editcap -F pcap."
            ),
            HeaderFault::LinkType { link_type } => format!(
                "the capture has link type {link_type} (byte 20); \
                 give one of link type 101, raw IP packets."
            ),
        }
    }
}

const CUT_OFF: &str = "the capture is cut off there: give it whole, or without that record.";

impl RecordFault {
    fn number(&self) -> u32 {
        match self {
            RecordFault::Header { .. } => 35,
            RecordFault::Cut { .. } => 36,
            RecordFault::Short { .. } | RecordFault::Version { .. } | RecordFault::Words { .. } => {
                37
            }
            RecordFault::Back { .. } => 38,
        }
    }

    fn said(&self) -> String {
        match self {
            RecordFault::Header { left } => {
                format!("has {left} of the 16 bytes of a record's header; {CUT_OFF}")
            }
            RecordFault::Cut { included, left } => format!(
                "includes {included} bytes of a packet, of which {left} are there; {CUT_OFF}"
            ),
            RecordFault::Short { included } => format!(
                "includes {included} of the 20 bytes of an IPv4 header; \
                 leave it out, or capture more of each packet."
            ),
            RecordFault::Version { version } => format!(
                "has a packet of IP version {version}; leave it out, since packets are IPv4."
            ),
            RecordFault::Words { words } => {
                format!("has an IPv4 header of {words} words, where 5 are the least; leave it out.")
            }
            RecordFault::Back { microseconds } => format!(
                "is stamped {microseconds} microseconds before the record above it; \
                 put records in the order of their stamps, say with reordercap."
            ),
        }
    }
}

impl EventFault {
    fn said(&self, table: &TableSlices) -> String {
        let name = format!("{}, event {} of the list,", name(self.place), self.event);
        let (class, code_point) = (self.class, self.code_point);
        match (self.number, class) {
            (11, _) => format!(
                "{name} is for class {class}, which no row has; \
                 name a class of the table for code point {code_point}."
            ),
            (12, _) => format!(
                "{name} is for {}; \
                 name a class with no class below it for code point {code_point}.",
                not_sending_class(table, class)
            ),
            (_, 0) => format!(
                "{name} is for class 0, which is no class; \
                 name a class of the table for code point {code_point}."
            ),
            _ => format!(
                "{name} for class {class}, has original length {}; \
                 a packet has 1 to {MOST_BYTES} bytes.",
                self.length
            ),
        }
    }
}
