//! A call over lent bytes, which the tests share.

use replayer::{run, Lent};

/// Identifier, parent, share.
pub type Row = (u32, u32, u32);
/// Class, length.
pub type Event = (u32, u32);

pub const ROOT: Row = (1, 0, 0);
pub const FINISH: Event = (0, 0);

/// Two classes with half of the line each.
pub const HALVES: [Row; 3] = [ROOT, (10, 1, 420), (20, 1, 420)];

/// The ten slices, in the order of `Lent`.
#[derive(Clone, Debug, PartialEq, Eq)]
pub struct Call(pub [Vec<u8>; 10]);

impl Call {
    /// Results that are longer than needed and full of bytes that differ from place to place.
    pub fn new(rows: &[Row], events: &[Event]) -> Call {
        let marked = |length: usize| (0..length).map(|place| place as u8 | 0x80).collect();
        Call([
            bytes(rows.iter().map(|r| r.0)),
            bytes(rows.iter().map(|r| r.1)),
            bytes(rows.iter().map(|r| r.2)),
            bytes(events.iter().map(|e| e.0)),
            bytes(events.iter().map(|e| e.1)),
            marked(4 * events.len() + 4),
            marked(40 * rows.len() + 8),
            marked(8 * rows.len() + 8),
            marked(4 * events.len() + 4),
            marked(16),
        ])
    }

    pub fn run(&mut self) -> u32 {
        let [identifiers, parents, shares, classes, lengths, order, report, lags, working, answer] =
            &mut self.0;
        run(Lent {
            identifiers,
            parents,
            shares,
            classes,
            lengths,
            order,
            report,
            lags,
            working,
            answer,
        })
    }

    /// Number, place, second place, count.
    pub fn answer(&self) -> Vec<u32> {
        words(&self.0[9])
    }

    /// The answer's first three words; that nothing else is written is looked at.
    pub fn refused(mut self) -> [u32; 3] {
        let before = self.clone();
        let number = self.run();
        let [first, place, second, count] = self.answer()[..] else {
            panic!("an answer has four words");
        };
        assert_eq!((first, count), (number, 0));
        assert_eq!(self.0[..9], before.0[..9]);
        [number, place, second]
    }
}

fn bytes(words: impl Iterator<Item = u32>) -> Vec<u8> {
    words.flat_map(u32::to_le_bytes).collect()
}

pub fn words(bytes: &[u8]) -> Vec<u32> {
    let (words, rest) = bytes.as_chunks();
    assert!(rest.is_empty());
    words.iter().map(|word| u32::from_le_bytes(*word)).collect()
}

pub fn longs(bytes: &[u8]) -> Vec<u64> {
    let (longs, rest) = bytes.as_chunks();
    assert!(rest.is_empty());
    longs.iter().map(|long| u64::from_le_bytes(*long)).collect()
}
