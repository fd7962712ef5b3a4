//! States as words: made from a table and events, and changed so that they stay sound.

use second::live::{event, fresh, is_sound, State, MOST_ACCEPTED, STATE_BYTES, STATE_WORDS};
use second::{TableSlices, MOST_BYTES, UNIT_COST};
use trials::{Event, Random, Row};

/// The words of a state's file; nothing if it is none.
pub fn words_of(bytes: &[u8]) -> Option<Vec<u64>> {
    let (words, _) = bytes.as_chunks::<8>();
    let words = words.iter().map(|word| u64::from_le_bytes(*word));
    (bytes.len() == STATE_BYTES).then(|| words.collect())
}

pub fn bytes_of(words: &[u64]) -> Vec<u8> {
    words.iter().flat_map(|word| word.to_le_bytes()).collect()
}

/// The state after these events, which need not all be accepted.
pub fn state_after(rows: &[Row], events: &[Event]) -> Vec<u64> {
    let column = |of: fn(&Row) -> u32| rows.iter().map(of).collect::<Vec<u32>>();
    let table = TableSlices {
        identifiers: &column(|row| row.identifier),
        parents: &column(|row| row.parent),
        shares: &column(|row| row.share),
    };
    let mut words = vec![0; STATE_WORDS];
    fresh(table, &mut words);
    for Event { class, length } in events {
        event(&mut words, *class, *length);
    }
    words
}

/// The words in use of a sound state.
pub fn in_use(words: &[u64]) -> State {
    State::read(words).unwrap_or_default()
}

/// The same words out of use, and these in use.
pub fn over(words: &[u64], state: &State) -> Vec<u64> {
    let mut words = words.to_vec();
    state.write(&mut words);
    words
}

/// Whether each word is in use, by writing the state over other words.
pub fn used(words: &[u64]) -> Vec<bool> {
    let state = in_use(words);
    let others: Vec<u64> = words.iter().map(|word| !word).collect();
    let pairs = over(&others, &state).into_iter().zip(others);
    pairs.map(|(word, other)| word != other).collect()
}

/// Gives each word out of use some number.
pub fn fill(words: &mut [u64], random: &mut Random) {
    let used = used(words);
    for (word, used) in words.iter_mut().zip(used) {
        if !used {
            *word = any_word(random);
        }
    }
}

pub fn any_word(random: &mut Random) -> u64 {
    let word = u64::from(random.word()) << 32 | u64::from(random.word());
    match random.below(4) {
        0 => word >> random.below(64),
        1 => random.below(300) as u64,
        _ => word,
    }
}

/// As many more packets have gone as leave so many to come; tags and byte counts have grown with
/// them as far as they can, or not at all.
pub fn raise(words: &mut [u64], to_come: u32, great: bool) {
    let mut state = in_use(words);
    let more = u64::from(MOST_ACCEPTED - to_come) - state.accepted;
    state.accepted += more;
    if great {
        let bytes = u64::from(MOST_BYTES) * more;
        let ticks = u64::from(UNIT_COST) * bytes;
        let parents: Vec<u64> = state.rows.iter().skip(1).map(|row| row.parent).collect();
        for (number, row) in (0..).zip(&mut state.rows) {
            row.bytes += bytes;
            row.bytes_then += bytes;
            row.parent_bytes_then += bytes;
            if number > 0 {
                row.start += ticks;
                row.finish += ticks;
            }
            if number == 0 || parents.contains(&number) {
                row.virtual_time += ticks;
            }
        }
    }
    state.write(words);
}

/// The same box with its classes in other rows, so that parents may stand below their children.
pub fn permute(words: &mut [u64], random: &mut Random) {
    let state = in_use(words);
    let mut to: Vec<usize> = (0..state.rows.len()).collect();
    random.shuffle(&mut to[1..]);
    let moved = |row: u64| to[row as usize] as u64;
    let mut other = state.clone();
    for (from, row) in state.rows.iter().enumerate() {
        let mut row = *row;
        row.parent = moved(row.parent);
        row.head.class = moved(row.head.class);
        other.rows[to[from]] = row;
    }
    for packet in &mut other.packets {
        packet.class = moved(packet.class);
    }
    other.write(words);
}

/// Changes so many words that are in use, one after another, such that the state stays sound.
pub fn wander(words: &mut [u64], steps: usize, random: &mut Random) {
    // The number of rows stays, so that no other words come into use.
    let places = &places_in_use(words)[1..];
    let mut taken = 0;
    for _ in 0..100 * steps {
        let place = random.pick(places);
        let before = words[place];
        words[place] = match random.below(4) {
            0 => before.wrapping_add(1),
            1 => before.wrapping_sub(1),
            2 => before / 2,
            _ => before.saturating_add(any_word(random) >> random.below(64)),
        };
        match is_sound(words) {
            true => taken += 1,
            false => words[place] = before,
        }
        if taken == steps {
            return;
        }
    }
}

pub fn places_in_use(words: &[u64]) -> Vec<usize> {
    let used = used(words).into_iter().enumerate();
    used.filter_map(|(place, used)| used.then_some(place))
        .collect()
}

#[cfg(test)]
mod tests {
    use super::*;
    use crate::lists::{mixed, restless};
    use trials::{random_table, SHAPES};

    /// Random states of all shapes of tables, and what goes on with them.
    fn states() -> impl Iterator<Item = (Vec<Row>, Vec<u64>, Random)> {
        (0..300).map(|number| {
            let mut random = Random::new(11, number);
            let rows = random_table(random.pick(&SHAPES), 100, &mut random);
            let most = random.below(60);
            let words = state_after(&rows, &mixed(&rows, most, &mut random));
            (rows, words, random)
        })
    }

    #[test]
    fn words_become_bytes_and_words_again() {
        for (_, words, _) in states().take(20) {
            assert_eq!(words_of(&bytes_of(&words)), Some(words));
        }
        assert_eq!(words_of(&[0; STATE_BYTES - 1]), None);
        assert_eq!(words_of(&[0; STATE_BYTES + 8]), None);
    }

    #[test]
    fn every_state_after_events_is_sound() {
        assert!(states().all(|(_, words, _)| is_sound(&words)));
    }

    #[test]
    fn words_out_of_use_are_filled_and_no_others() {
        for (_, words, mut random) in states() {
            let mut filled = words.clone();
            fill(&mut filled, &mut random);
            assert_eq!(in_use(&filled), in_use(&words));
            let places = places_in_use(&words);
            let rows = words[0] as usize;
            assert_eq!(places.len(), 2 + 14 * rows + 3 * words[3_072] as usize);
            let others = (0..STATE_WORDS).filter(|place| !places.contains(place));
            let same = others.filter(|place| filled[*place] == words[*place]);
            assert!(same.count() < 100);
        }
    }

    #[test]
    fn a_raised_state_is_sound() {
        for (number, (_, words, _)) in states().enumerate() {
            for great in [false, true] {
                let mut raised = words.clone();
                let to_come = number as u32 % 3;
                raise(&mut raised, to_come, great);
                assert!(is_sound(&raised));
                assert_eq!(raised[1], u64::from(MOST_ACCEPTED - to_come));
                assert_eq!(raised[1_792] >> 63 == 1, great);
            }
        }
    }

    #[test]
    fn a_permuted_box_sends_the_same() {
        let mut moved = 0;
        for (rows, mut words, mut random) in states() {
            let mut permuted = words.clone();
            permute(&mut permuted, &mut random);
            assert!(is_sound(&permuted));
            let state = in_use(&permuted);
            let below = |(row, parent): (u64, u64)| parent > row;
            moved += usize::from((0..).zip(state.rows.iter().map(|r| r.parent)).any(below));
            for Event { class, length } in restless(&rows, 40, &mut random) {
                let same = event(&mut permuted, class, length);
                assert_eq!(event(&mut words, class, length), same);
            }
        }
        assert!(moved > 100);
    }

    /// From any sound state, one that no events lead to among them.
    #[test]
    fn a_sound_state_stays_sound() {
        for (number, (rows, mut words, mut random)) in states().enumerate() {
            if number % 2 == 0 {
                permute(&mut words, &mut random);
            }
            if number % 3 == 0 {
                raise(&mut words, 5, number % 6 == 0);
            }
            let before = words.clone();
            wander(&mut words, 40, &mut random);
            assert_ne!(words, before);
            assert!(is_sound(&words));
            for Event { class, length } in restless(&rows, 60, &mut random) {
                event(&mut words, class, length);
                assert!(is_sound(&words));
            }
        }
    }
}
