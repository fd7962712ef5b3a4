//! Reading tables from text and writing them, with a look at every lent word and byte.

use second::{read_table, write_table, Answer, TableRoom};

use super::{Columns, Row};

pub const HEADING: &str = "identifier,parent,share\r\n";

/// What lent words and bytes hold before; no test writes either.
const WORD: u32 = 4_000_000_001;
pub const BYTE: u8 = b'#';

/// A heading and what follows it.
pub fn below(rest: &str) -> Vec<u8> {
    [HEADING, rest].concat().into_bytes()
}

/// Reads so many of the bytes into slices of so many words.
fn read(bytes: &[u8], length: usize, words: [usize; 3]) -> (Answer, [Vec<u32>; 3]) {
    let mut lent = words.map(|count| vec![WORD; count]);
    let [identifiers, parents, shares] = &mut lent;
    let room = TableRoom {
        identifiers,
        parents,
        shares,
    };
    (read_table(bytes, length, room), lent)
}

/// Reads what must be refused; gives number, place and second place.
pub fn refused_read(bytes: &[u8], length: usize, words: [usize; 3]) -> (u32, u32, u32) {
    let (answer, lent) = read(bytes, length, words);
    assert_ne!(answer.number, 0);
    assert_eq!(answer.count, 0);
    assert!(lent.concat().iter().all(|word| *word == WORD));
    (answer.number, answer.place, answer.second)
}

/// Reads a text that must be refused, over slices long enough for any table.
pub fn refused_text(text: impl AsRef<[u8]>) -> (u32, u32, u32) {
    let text = text.as_ref();
    refused_read(text, text.len(), [256; 3])
}

/// Reads a text that must be accepted, over slices of unlike lengths.
pub fn accepted_text(text: &[u8]) -> Vec<Row> {
    let (answer, [identifiers, parents, shares]) = read(text, text.len(), [256, 257, 300]);
    assert_eq!((answer.number, answer.place, answer.second), (0, 0, 0));
    let rows = answer.count as usize;
    for slice in [&identifiers, &parents, &shares] {
        assert!(slice[rows..].iter().all(|word| *word == WORD));
    }
    let rest = parents.into_iter().zip(shares);
    let all = identifiers.into_iter().zip(rest);
    all.take(rows).map(|(i, (p, s))| (i, p, s)).collect()
}

/// The bytes that an accepted write leaves, from so many that are lent.
pub fn written(lent: usize, write: impl FnOnce(&mut [u8]) -> Answer) -> Vec<u8> {
    let mut bytes = vec![BYTE; lent];
    let answer = write(&mut bytes);
    assert_eq!((answer.number, answer.place, answer.second), (0, 0, 0));
    let rest = bytes.split_off(answer.count as usize);
    assert!(rest.iter().all(|byte| *byte == BYTE));
    bytes
}

/// What a refused write answers: number, place and second place.
pub fn refused_write(lent: usize, write: impl FnOnce(&mut [u8]) -> Answer) -> (u32, u32, u32) {
    let mut bytes = vec![BYTE; lent];
    let answer = write(&mut bytes);
    assert_ne!(answer.number, 0);
    assert_eq!(answer.count, 0);
    assert!(bytes.iter().all(|byte| *byte == BYTE));
    (answer.number, answer.place, answer.second)
}

/// Writes these rows.
pub fn write_rows(rows: &[Row]) -> impl FnOnce(&mut [u8]) -> Answer {
    let columns = Columns::new(rows, &[]);
    move |bytes| write_table(columns.table(), bytes)
}
