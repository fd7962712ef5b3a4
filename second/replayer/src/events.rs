//! The event list, and refusals 11 to 14.

use crate::answer::Answer;
use crate::table::Table;
use crate::words::{Word, Words};

const MOST_BYTES: u32 = 9000;

#[derive(Clone, Copy)]
pub struct Events<'a> {
    classes: &'a [Word],
    lengths: &'a [Word],
}

impl<'a> Events<'a> {
    pub fn new(words: &Words<'a>) -> Events<'a> {
        Events {
            classes: words.classes,
            lengths: words.lengths,
        }
    }

    pub fn count(&self) -> usize {
        self.classes.len()
    }

    pub fn length(&self, place: usize) -> u32 {
        u32::from_le_bytes(self.lengths[place])
    }

    /// Class and length, from the first event on.
    pub fn pairs(&self) -> impl Iterator<Item = (u32, u32)> + 'a {
        let pairs = self.classes.iter().zip(self.lengths);
        pairs.map(|(class, length)| (u32::from_le_bytes(*class), u32::from_le_bytes(*length)))
    }

    /// The line is idle exactly where no packet is held, so this needs no step of the box.
    pub fn check(&self, table: &Table) -> Result<(), Answer> {
        let mut held: u32 = 0;
        for (place, (class, length)) in self.pairs().enumerate() {
            let refused = |number| Answer::refused(number, place);
            if class != 0 {
                check_arrival(table, class, length).map_err(refused)?;
                held += 1;
            } else if length != 0 {
                return Err(refused(13));
            } else {
                held = held.checked_sub(1).ok_or(refused(14))?;
            }
        }
        Ok(())
    }
}

fn check_arrival(table: &Table, class: u32, length: u32) -> Result<(), u32> {
    let row = table.row_of(class).ok_or(11_u32)?;
    if row == 0 || table.rows[usize::from(row)].children != 0 {
        return Err(12);
    }
    if !(1..=MOST_BYTES).contains(&length) {
        return Err(13);
    }
    Ok(())
}
