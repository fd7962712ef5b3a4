//! The words of a lent state: which number stands where, and those in use by row and by packet.

use crate::live::MOST_HELD;
use crate::run::MOST_ROWS;

/// Words of a state.
pub const STATE_WORDS: usize = 6_912;

const ROW_COUNT: usize = 0;
const ACCEPTED: usize = 1;

/// Lists that have a word for each row; the first begins after as many words.
const ROW_LISTS: usize = 14;
const FIRST_ROW_LIST: usize = MOST_ROWS;

/// Lists that have a word for each packet held.
const PACKET_LISTS: usize = 3;
const FIRST_PACKET_LIST: usize = FIRST_ROW_LIST + ROW_LISTS * MOST_ROWS;

const _: () = assert!(FIRST_PACKET_LIST + PACKET_LISTS * MOST_HELD == STATE_WORDS);

/// The root's packets held, which are all that there are.
const HELD: usize = 12 * MOST_ROWS;

/// The words in use, whatever they hold.
#[derive(Clone, Debug, Default, PartialEq, Eq)]
pub struct State {
    /// Packets ever accepted.
    pub accepted: u64,
    pub rows: Vec<StateRow>,
    /// In the order of their arrival.
    pub packets: Vec<StatePacket>,
}

#[derive(Clone, Copy, Debug, Default, PartialEq, Eq)]
pub struct StateRow {
    pub identifier: u64,
    /// The parent's row; 0 for the root too.
    pub parent: u64,
    pub depth: u64,
    pub share: u64,
    pub start: u64,
    pub finish: u64,
    pub virtual_time: u64,
    pub head: StateHead,
    pub bytes: u64,
    pub held: u64,
    pub bytes_then: u64,
    pub parent_bytes_then: u64,
}

/// Three zeros where a row has none.
#[derive(Clone, Copy, Debug, Default, PartialEq, Eq)]
pub struct StateHead {
    /// Its name and one more.
    pub after_name: u64,
    pub length: u64,
    /// The row of its class.
    pub class: u64,
}

#[derive(Clone, Copy, Debug, Default, PartialEq, Eq)]
pub struct StatePacket {
    /// The row of its class.
    pub class: u64,
    pub length: u64,
    /// The place of its arrival among the accepted events.
    pub name: u64,
}

impl State {
    /// The words in use of a whole state; nothing where more rows or packets are in use than
    /// there is room for, or no row.
    pub fn read(words: &[u64]) -> Option<State> {
        let rows = usize::try_from(words[ROW_COUNT]).ok()?;
        let packets = usize::try_from(words[HELD]).ok()?;
        ((1..=MOST_ROWS).contains(&rows) && packets <= MOST_HELD).then(|| State {
            accepted: words[ACCEPTED],
            rows: (0..rows).map(|row| StateRow::read(words, row)).collect(),
            packets: (0..packets)
                .map(|place| StatePacket::read(words, place))
                .collect(),
        })
    }

    /// Writes the words in use and no other.
    pub fn write(&self, words: &mut [u64]) {
        words[ROW_COUNT] = self.rows.len() as u64;
        words[ACCEPTED] = self.accepted;
        for (row, numbers) in self.rows.iter().enumerate() {
            numbers.write(words, row);
        }
        for (place, packet) in self.packets.iter().enumerate() {
            packet.write(words, place);
        }
    }
}

fn row_word(list: usize, row: usize) -> usize {
    FIRST_ROW_LIST + list * MOST_ROWS + row
}

fn packet_word(list: usize, place: usize) -> usize {
    FIRST_PACKET_LIST + list * MOST_HELD + place
}

impl StateRow {
    fn read(words: &[u64], row: usize) -> StateRow {
        let numbers: [u64; ROW_LISTS] = std::array::from_fn(|list| words[row_word(list, row)]);
        let [identifier, parent, depth, share, start, finish, virtual_time, after_name, length, class, bytes, held, bytes_then, parent_bytes_then] =
            numbers;
        StateRow {
            identifier,
            parent,
            depth,
            share,
            start,
            finish,
            virtual_time,
            head: StateHead {
                after_name,
                length,
                class,
            },
            bytes,
            held,
            bytes_then,
            parent_bytes_then,
        }
    }

    fn write(&self, words: &mut [u64], row: usize) {
        let numbers: [u64; ROW_LISTS] = [
            self.identifier,
            self.parent,
            self.depth,
            self.share,
            self.start,
            self.finish,
            self.virtual_time,
            self.head.after_name,
            self.head.length,
            self.head.class,
            self.bytes,
            self.held,
            self.bytes_then,
            self.parent_bytes_then,
        ];
        for (list, number) in numbers.into_iter().enumerate() {
            words[row_word(list, row)] = number;
        }
    }
}

impl StatePacket {
    fn read(words: &[u64], place: usize) -> StatePacket {
        let [class, length, name] =
            std::array::from_fn::<u64, PACKET_LISTS, _>(|list| words[packet_word(list, place)]);
        StatePacket {
            class,
            length,
            name,
        }
    }

    fn write(&self, words: &mut [u64], place: usize) {
        let numbers: [u64; PACKET_LISTS] = [self.class, self.length, self.name];
        for (list, number) in numbers.into_iter().enumerate() {
            words[packet_word(list, place)] = number;
        }
    }
}
