//! Which calls are compared: a round of kinds, over and over, and one list of full size.

use std::mem::discriminant;

use crate::blocks::{any_bytes, After, Blocks};
use second::{MOST_DEPTH, MOST_EVENTS};
use trials::{
    any_share, damage, damage_twice, random_events, random_table, rounding_case, Buffers, Case,
    Random, Shape, SHAPES, SLICES, WORD_BYTES,
};

#[derive(Clone, Copy, Debug)]
enum Kind {
    Accepted(Shape),
    NoEvents,
    Rounding,
    Refused(u32),
    TwiceDamaged,
    /// A result has some words too few.
    Short,
    /// A slice that is read has some words too many or too few.
    Unequal,
    /// A slice has some bytes too many or too few.
    PartWords,
    AnswerSize,
    /// Some slices have nothing.
    Empty,
    /// Some bytes of what is read are others.
    ChangedBytes,
    /// Some slices that are read have any bytes.
    AnyBytes,
    FullSize,
}

use Kind::{
    Accepted, AnswerSize, AnyBytes, ChangedBytes, Empty, NoEvents, PartWords, Refused, Rounding,
    Short, TwiceDamaged, Unequal,
};

const ROUND: [Kind; 46] = [
    Accepted(Shape::Flat),
    Accepted(Shape::Chain),
    Accepted(Shape::Deep),
    Accepted(Shape::Wide),
    Accepted(Shape::Any),
    Accepted(Shape::Even),
    Accepted(Shape::Groups),
    Accepted(Shape::Levels),
    Accepted(Shape::Two),
    Accepted(Shape::Full),
    NoEvents,
    Rounding,
    Rounding,
    Refused(1),
    Refused(2),
    Refused(4),
    Refused(5),
    Refused(6),
    Refused(7),
    Refused(8),
    Refused(9),
    Refused(10),
    Refused(11),
    Refused(12),
    Refused(13),
    Refused(14),
    Refused(15),
    TwiceDamaged,
    TwiceDamaged,
    TwiceDamaged,
    Short,
    Short,
    Unequal,
    Unequal,
    PartWords,
    PartWords,
    PartWords,
    PartWords,
    AnswerSize,
    Empty,
    Empty,
    ChangedBytes,
    ChangedBytes,
    ChangedBytes,
    AnyBytes,
    AnyBytes,
];

/// The first slice that is written.
const FIRST_RESULT: usize = 5;

/// The place of the answer among the slices.
const ANSWER: usize = SLICES.len() - 1;

const ANSWER_SIZES: [usize; 8] = [0, 15, 17, 1, 8, 12, 20, 32];

/// One call and what it is, for a reader.
pub struct Trial {
    pub name: String,
    pub blocks: Blocks,
}

/// The call with this number, of so many besides the one of full size, which is the last.
pub fn trial(seed: u64, number: usize, lists: usize, after: After) -> Trial {
    let mut random = Random::new(seed, number as u64);
    let kind = match number < lists {
        true => ROUND[number % ROUND.len()],
        false => Kind::FullSize,
    };
    let case = case(kind, &mut random);
    let mut buffers = with_spare(&case, &mut random);
    damage_slices(kind, turn(number), &mut buffers.0, &mut random);
    for result in &mut buffers.0[FIRST_RESULT..] {
        *result = any_bytes(result.len(), &mut random);
    }
    Trial {
        name: format!("{kind:?}"),
        blocks: Blocks::around(buffers, after, &mut random),
    }
}

/// Counts on from one call of a kind to the next.
fn turn(number: usize) -> usize {
    let (round, place) = (number / ROUND.len(), number % ROUND.len());
    let kind = discriminant(&ROUND[place]);
    let alike = |kinds: &[Kind]| kinds.iter().filter(|k| discriminant(*k) == kind).count();
    round * alike(&ROUND) + alike(&ROUND[..place])
}

/// The table and the list, accepted or refused by their words.
fn case(kind: Kind, random: &mut Random) -> Case {
    let mut case = accepted_case(kind, random);
    match kind {
        Refused(refusal) => damage(&mut case, refusal, random.below(MOST_EVENTS), random),
        TwiceDamaged => damage_twice(&mut case, random),
        Short | Unequal | PartWords | AnswerSize if random.one_in(3) => {
            // What else is wrong must not come before the slices.
            damage(&mut case, random.pick(&[4, 7, 8, 11, 13]), 0, random);
        }
        _ => {}
    }
    case
}

fn accepted_case(kind: Kind, random: &mut Random) -> Case {
    let shape = match kind {
        Rounding => {
            let above = random.pick(&[0, MOST_DEPTH - 1]);
            let above: Vec<u32> = (0..above).map(|_| any_share(random)).collect();
            return rounding_case(&above, random);
        }
        Accepted(shape) => shape,
        Kind::FullSize => Shape::Full,
        _ => random.pick(&SHAPES[..SHAPES.len() - 1]),
    };
    let most = match kind {
        Kind::FullSize => MOST_EVENTS,
        NoEvents => 0,
        Accepted(_) if random.one_in(8) => random.between(300, 2000),
        Accepted(_) => random.between(1, 300),
        _ => random.between(1, 60),
    };
    let drains = !matches!(kind, Kind::FullSize) && random.one_in(2);
    let rows = random_table(shape, any_share(random), random);
    let events = random_events(&rows, most, drains, random);
    Case { rows, events }
}

/// Results that are just long enough, or some words longer.
fn with_spare(case: &Case, random: &mut Random) -> Buffers {
    let mut buffers = Buffers::of(case);
    let results = buffers.0.iter_mut().zip(WORD_BYTES);
    for (slice, word) in results.take(ANSWER).skip(FIRST_RESULT) {
        let spare = random.below(2) * random.below(5);
        grow(slice, spare * word, random);
    }
    buffers
}

fn grow(slice: &mut Vec<u8>, bytes: usize, random: &mut Random) {
    slice.extend(any_bytes(bytes, random));
}

fn cut(slice: &mut Vec<u8>, bytes: usize) {
    slice.truncate(slice.len().saturating_sub(bytes));
}

/// So many bytes too many, or too few.
fn resize(slice: &mut Vec<u8>, bytes: usize, random: &mut Random) {
    match random.one_in(2) {
        true => grow(slice, bytes, random),
        false => cut(slice, bytes),
    }
}

fn damage_slices(kind: Kind, turn: usize, slices: &mut [Vec<u8>; 10], random: &mut Random) {
    match kind {
        Short => short(turn, slices, random),
        Unequal => {
            let slice = turn % FIRST_RESULT;
            resize(
                &mut slices[slice],
                WORD_BYTES[slice] * random.between(1, 3),
                random,
            );
        }
        PartWords => part_words(turn, slices, random),
        AnswerSize => {
            let size = ANSWER_SIZES[turn % ANSWER_SIZES.len()];
            slices[ANSWER] = any_bytes(size, random);
        }
        Empty => empty(turn, slices, random),
        ChangedBytes => changed_bytes(slices, random),
        AnyBytes => {
            let which = 1 + turn % 31;
            for (place, slice) in slices.iter_mut().enumerate().take(FIRST_RESULT) {
                if (which >> place) & 1 == 1 {
                    *slice = any_bytes(slice.len(), random);
                }
            }
        }
        _ => {}
    }
}

/// Cuts a result to some words less than it must have.
fn short(turn: usize, slices: &mut [Vec<u8>; 10], random: &mut Random) {
    let [rows, events] = [slices[0].len() / 4, slices[3].len() / 4];
    let needed = [events, 5 * rows, rows, events];
    let place = turn % needed.len();
    let words = needed[place].saturating_sub(random.pick(&[1, 1, 2, 3]));
    let slice = FIRST_RESULT + place;
    slices[slice].truncate(words * WORD_BYTES[slice]);
}

/// Each number of bytes up to 7, too many and too few, of each slice in turn.
fn part_words(turn: usize, slices: &mut [Vec<u8>; 10], random: &mut Random) {
    let (slice, turn) = (turn % SLICES.len(), turn / SLICES.len());
    let bytes = 1 + turn % 7;
    match turn / 7 % 2 {
        0 => grow(&mut slices[slice], bytes, random),
        _ => cut(&mut slices[slice], bytes),
    }
}

/// Each slice in turn, and then any of them.
fn empty(turn: usize, slices: &mut [Vec<u8>; 10], random: &mut Random) {
    let one = turn % (2 * SLICES.len());
    for (place, slice) in slices.iter_mut().enumerate() {
        let is_empty = match one < SLICES.len() {
            true => place == one,
            false => random.one_in(2),
        };
        if is_empty {
            slice.clear();
        }
    }
}

fn changed_bytes(slices: &mut [Vec<u8>; 10], random: &mut Random) {
    let read = &mut slices[..FIRST_RESULT];
    for _ in 0..random.pick(&[1, 1, 1, 2, 5]) {
        let slice = random.below(read.len());
        let place = random.below(read[slice].len().max(1));
        if let Some(byte) = read[slice].get_mut(place) {
            *byte = match random.one_in(2) {
                true => random.word() as u8,
                false => *byte ^ 1 << random.below(8),
            };
        }
    }
}

#[cfg(test)]
mod tests {
    use super::*;

    #[test]
    fn every_seed_has_calls_of_all_kinds() {
        for seed in 0..20 {
            for number in 0..ROUND.len() {
                trial(seed, number, ROUND.len(), After::Guards);
            }
        }
    }

    #[test]
    fn the_same_seed_gives_the_same_bytes() {
        let blocks = |seed, number| trial(seed, number, ROUND.len(), After::Guards).blocks;
        for number in 0..ROUND.len() {
            assert!(blocks(1, number) == blocks(1, number));
            assert!(blocks(1, number) != blocks(2, number));
        }
    }

    #[test]
    fn kinds_take_turns() {
        let turns = |kind: Kind| {
            let same =
                |number: &usize| discriminant(&ROUND[number % ROUND.len()]) == discriminant(&kind);
            let numbers = (0..3 * ROUND.len()).filter(same);
            numbers.map(turn).collect::<Vec<_>>()
        };
        assert_eq!(turns(NoEvents), [0, 1, 2]);
        assert_eq!(turns(PartWords), (0..12).collect::<Vec<_>>());
    }
}
