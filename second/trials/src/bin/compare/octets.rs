//! One small capture in each layout, damaged byte by byte.

use crate::plan::Trial;
use trials::captures::{
    Capture, CaptureCase, Layout, FILE_HEADER, LAYOUTS, PACKET_HEADER, RECORD_HEADER,
};
use trials::{even_table, CaptureFile, Files};

/// Bytes of a record, and how many of them, its header and the first two of its packet, are looked
/// at or stand between such ones.
const RECORD: usize = RECORD_HEADER + PACKET_HEADER;
const LOOKED_AT: usize = RECORD_HEADER + 2;

const BYTES: usize = FILE_HEADER + 2 * RECORD;
const CHANGED: usize = FILE_HEADER + 2 * LOOKED_AT;

/// What a byte is changed to.
const CHANGES: [fn(u8) -> u8; 4] = [
    |byte| byte.wrapping_add(1),
    |byte| byte.wrapping_sub(1),
    |byte| byte ^ 0x80,
    |byte| byte ^ 0x55,
];

/// Damages in each layout: a byte changed, the capture cut off at each place, and a byte put in there.
const WAYS: usize = CHANGED * CHANGES.len() + BYTES + BYTES + 1;

/// How many damaged captures there are.
pub const OCTETS: usize = LAYOUTS.len() * WAYS;

/// The damaged capture with this number, and what was done to it.
pub fn damaged_capture(number: usize) -> Trial {
    let layout = LAYOUTS[number / WAYS];
    let mut files = small(layout);
    let name = match &mut files.capture {
        Some(CaptureFile {
            bytes: Some(bytes), ..
        }) => damage(bytes, number % WAYS),
        _ => String::new(),
    };
    Trial {
        name: format!("a capture, {layout}, {name}"),
        files,
        case: None,
    }
}

/// Two packets, the second of which arrives as the first is finished.
fn small(layout: Layout) -> Files {
    let records = vec![layout.record(7, 100, 46), layout.record(87, 1500, 8)];
    let case = CaptureCase {
        capture: Capture::new(layout, records),
        rows: even_table(&[3]),
        classes: [2, 3, 4],
        rate: 1_250_000,
    };
    case.files()
}

/// Damages the bytes and says how.
fn damage(bytes: &mut Vec<u8>, way: usize) -> String {
    let changes = CHANGED * CHANGES.len();
    match way.checked_sub(changes) {
        None => {
            let place = looked_at(way / CHANGES.len());
            bytes[place] = CHANGES[way % CHANGES.len()](bytes[place]);
            format!("whose byte {place} is now {}", bytes[place])
        }
        Some(place) if place < BYTES => {
            bytes.truncate(place);
            format!("cut off after {place} bytes")
        }
        Some(place) => {
            let place = place - BYTES;
            bytes.insert(place, 0);
            format!("with a byte 0 put in at {place}")
        }
    }
}

/// Where the byte with this number among those that are looked at stands.
fn looked_at(number: usize) -> usize {
    match number.checked_sub(FILE_HEADER) {
        None => number,
        Some(below) => FILE_HEADER + below / LOOKED_AT * RECORD + below % LOOKED_AT,
    }
}

#[cfg(test)]
mod tests {
    use std::collections::BTreeSet;

    use super::*;

    fn bytes(files: Files) -> Vec<u8> {
        let capture = files.capture.expect("there is a capture");
        capture.bytes.expect("it has bytes")
    }

    #[test]
    fn every_damage_is_there_in_every_layout() {
        let all: BTreeSet<Vec<u8>> = (0..OCTETS)
            .map(|number| bytes(damaged_capture(number).files))
            .collect();
        for layout in LAYOUTS {
            let whole = bytes(small(layout));
            assert_eq!(whole.len(), BYTES);
            assert!(!all.contains(&whole));
            for place in 0..BYTES {
                assert!(all.contains(&whole[..place]));
                let longer = [&whole[..place], &[0], &whole[place..]].concat();
                assert!(all.contains(&longer));
            }
            let changed = |place: usize| {
                let is_there = |change: &fn(u8) -> u8| {
                    let mut other = whole.clone();
                    other[place] = change(other[place]);
                    all.contains(&other)
                };
                CHANGES.iter().filter(|change| is_there(change)).count()
            };
            for place in [0, 4, 23, 24, 39, 40, 41, 60, 75, 77] {
                assert_eq!(changed(place), CHANGES.len(), "{place}");
            }
            assert_eq!(changed(42) + changed(95), 0);
        }
    }
}
