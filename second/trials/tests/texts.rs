//! What must hold of every table's text, looked at over random tables and random damage.
#![forbid(unsafe_code)]

use std::collections::BTreeSet;

use second::{read_table, write_table, Answer, TableRoom, TableSlices, MOST_ROWS};
use trials::{any_share, lines, random_table, Case, Random, Row, SHAPES};

/// More bytes than any table has, and what they hold before.
const LENT: usize = 5000;
const MARK: u8 = b'#';

/// A number that no table has.
const WORD: u32 = 4_000_000_000;

type Columns = [Vec<u32>; 3];

/// What reading answers, and the slices that were lent for the rows.
fn read(text: &[u8]) -> (Answer, Columns) {
    let mut columns = [(); 3].map(|()| vec![WORD; MOST_ROWS]);
    let [identifiers, parents, shares] = &mut columns;
    let room = TableRoom {
        identifiers,
        parents,
        shares,
    };
    (read_table(text, text.len(), room), columns)
}

/// The text that is written for so many rows; all must be accepted.
fn written(rows: usize, [identifiers, parents, shares]: &Columns) -> Vec<u8> {
    let table = TableSlices {
        identifiers: &identifiers[..rows],
        parents: &parents[..rows],
        shares: &shares[..rows],
    };
    let mut bytes = vec![MARK; LENT];
    let answer = write_table(table, &mut bytes);
    assert_eq!((answer.number, answer.place, answer.second), (0, 0, 0));
    let rest = bytes.split_off(answer.count as usize);
    assert!(rest.iter().all(|byte| *byte == MARK));
    bytes
}

fn some_rows(random: &mut Random) -> Vec<Row> {
    random_table(random.pick(&SHAPES), any_share(random), random)
}

fn text_of(rows: Vec<Row>) -> Vec<u8> {
    let events = Vec::new();
    Case { rows, events }.table_text().into_bytes()
}

#[test]
fn a_table_that_is_written_and_read_is_the_same() {
    for list in 0..2000 {
        let rows = some_rows(&mut Random::new(11, list));
        let column = |of: fn(&Row) -> u32| rows.iter().map(of).collect::<Vec<u32>>();
        let columns = [
            column(|row| row.identifier),
            column(|row| row.parent),
            column(|row| row.share),
        ];
        let text = written(rows.len(), &columns);
        let (answer, found) = read(&text);
        assert_eq!((answer.number, answer.count as usize), (0, rows.len()));
        for (found, column) in found.iter().zip(&columns) {
            assert_eq!(found[..rows.len()], column[..]);
            assert!(found[rows.len()..].iter().all(|word| *word == WORD));
        }
        assert_eq!(text, text_of(rows));
    }
}

/// The text of a random table with some bytes changed, put in or taken out.
fn damaged(random: &mut Random) -> Vec<u8> {
    let mut rows = some_rows(random);
    rows.truncate(random.between(2, 12));
    let mut text = text_of(rows);
    for _ in 0..random.pick(&[1, 1, 2, 3]) {
        // Mostly below the heading.
        let first = if random.one_in(6) { 0 } else { 25 };
        let place = random.between(first.min(text.len()), text.len());
        let byte = random.pick(b"0123456789012345678901234567890123456789,,,\r\n\r\n x;\0\xff");
        match random.below(8) {
            0..=2 => text.insert(place, byte),
            3..=4 if place < text.len() => text[place] = byte,
            5..=6 if place < text.len() => drop(text.remove(place)),
            _ => text.truncate(place),
        }
    }
    text
}

#[test]
fn a_text_is_accepted_and_written_again_or_refused_and_nothing_is_written() {
    let mut numbers = BTreeSet::new();
    for list in 0..20_000 {
        let text = damaged(&mut Random::new(12, list));
        let (answer, columns) = read(&text);
        numbers.insert(answer.number);
        if answer.number == 0 {
            assert_eq!(written(answer.count as usize, &columns), text);
        } else {
            assert_eq!(answer.count, 0);
            assert!(columns.concat().iter().all(|word| *word == WORD));
        }
    }
    for number in [0, 1, 4, 5, 7, 8, 15, 41, 42, 43, 44, 45, 46, 47] {
        assert!(numbers.contains(&number), "{number}");
    }
}

/// The lines before that of the first fault have none, and what comes after its line is not looked at.
#[test]
fn a_fault_is_the_first_one() {
    let mut faults = 0;
    for list in 0..20_000 {
        let mut random = Random::new(13, list);
        let text = damaged(&mut random);
        let (answer, _) = read(&text);
        if !(41..=47).contains(&answer.number) {
            continue;
        }
        faults += 1;
        let mut parts = lines(&text);
        let line = answer.place as usize;
        assert!(parts.len() >= line - 1);
        let before = parts[..line - 1].concat();
        let (without, _) = read(&before);
        assert!(line == 1 || without.number < 40);
        parts.truncate(line);
        let whole = parts.last().is_some_and(|part| part.ends_with(b"\n"));
        // Where the text ends in the line, more of it would go on with that.
        if whole {
            parts.push(damaged(&mut random));
            assert_eq!(read(&parts.concat()).0, answer);
        }
    }
    assert!(faults > 5000, "{faults}");
}
