//! One small table, damaged byte by byte.

use crate::plan::Trial;
use trials::Files;

const TABLE: &[u8] = b"identifier,parent,share\r\n1,0,0\r\n2,1,840\r\n";
const EVENTS: &[u8] = b"class,length\n2,100\n2,200\n0,0\n";

/// Bytes that are put in at each place.
const PUT_IN: &[u8] = b"0123456789,\r\n \"";

/// Ways to damage the table at a byte: 255 other ones, without it, with it twice, and cut off there.
const WAYS: usize = 255 + 3;

/// How many damaged tables there are: at each byte, and with one put in at each place.
pub const TEXTS: usize = TABLE.len() * WAYS + (TABLE.len() + 1) * PUT_IN.len();

/// The damaged table with this number, its list, and what was done to it.
pub fn damaged_table(number: usize) -> Trial {
    let (place, way) = (number / WAYS, number % WAYS);
    let Some(byte) = TABLE.get(place) else {
        let put_in = number - TABLE.len() * WAYS;
        let byte = PUT_IN[put_in % PUT_IN.len()];
        return replaced(put_in / PUT_IN.len(), 0, &[byte]);
    };
    match way {
        0 => replaced(place, 1, b""),
        1 => replaced(place, 1, &[*byte; 2]),
        2 => replaced(place, TABLE.len() - place, b""),
        _ => replaced(place, 1, &[byte.wrapping_add((way - 2) as u8)]),
    }
}

/// The table with other bytes for so many from this place on.
fn replaced(place: usize, count: usize, by: &[u8]) -> Trial {
    let mut table = TABLE.to_vec();
    table.splice(place..place + count, by.iter().copied());
    let by = by.escape_ascii();
    Trial {
        name: format!("a table whose {count} bytes from {place} on are now \"{by}\""),
        files: Files {
            table: Some(table),
            events: Some(EVENTS.to_vec()),
            ..Files::default()
        },
        case: None,
    }
}

#[cfg(test)]
mod tests {
    use std::collections::{BTreeMap, BTreeSet};

    use super::*;
    use second::{read_table, TableRoom};

    fn table(number: usize) -> Vec<u8> {
        let files = damaged_table(number).files;
        files.table.expect("there is a table")
    }

    /// What reading the text answers.
    fn number(text: &[u8]) -> u32 {
        let [mut identifiers, mut parents, mut shares] = [[0; 3]; 3];
        let room = TableRoom {
            identifiers: &mut identifiers,
            parents: &mut parents,
            shares: &mut shares,
        };
        read_table(text, text.len(), room).number
    }

    #[test]
    fn every_damage_is_there() {
        assert_eq!(number(TABLE), 0);
        let texts: BTreeSet<Vec<u8>> = (0..TEXTS).map(table).collect();
        assert!(!texts.contains(TABLE));
        for place in 0..TABLE.len() {
            let changed = |byte: u8| [&TABLE[..place], &[byte], &TABLE[place + 1..]].concat();
            let others = (0..=255).filter(|byte| *byte != TABLE[place]);
            assert!(others.map(changed).all(|text| texts.contains(&text)));
            assert!(texts.contains(&TABLE[..place]));
            let dropped = [&TABLE[..place], &TABLE[place + 1..]].concat();
            assert!(texts.contains(&dropped));
            let doubled = [&TABLE[..=place], &TABLE[place..]].concat();
            assert!(texts.contains(&doubled));
        }
    }

    #[test]
    fn every_fault_that_one_byte_can_make_comes_up() {
        let mut counts = BTreeMap::new();
        for text in 0..TEXTS {
            *counts.entry(number(&table(text))).or_insert(0) += 1;
        }
        // No byte makes a number too large, and none a text too long.
        let expected = [0, 1, 4, 5, 6, 7, 8, 41, 42, 43, 45, 46, 47];
        assert_eq!(counts.keys().copied().collect::<Vec<u32>>(), expected);
        assert!(counts.values().all(|count| *count > 1), "{counts:?}");
    }
}
