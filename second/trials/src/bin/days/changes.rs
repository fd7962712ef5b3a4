//! The ways in which a sound state is changed: one word, words together, and one against another.

use crate::states::{any_word, in_use, places_in_use};
use second::charge;
use second::live::{is_sound, State, StateRow, STATE_WORDS};
use trials::Random;

/// The words of some places.
pub type Change = Vec<(usize, u64)>;

// Where the lists that are changed begin.
const PARENT: usize = 512;
const DEPTH: usize = 768;
const START: usize = 1_280;
const FINISH: usize = 1_536;
const HEAD: [usize; 3] = [2_048, 2_304, 2_560];
const BYTES: usize = 2_816;
const HELD: usize = 3_072;
const BYTES_THEN: usize = 3_328;
const NAME: usize = 5_888;

/// Words out of use that are changed.
const OUT_OF_USE: usize = 40;

/// The state with this change.
pub fn changed(words: &[u64], change: &Change) -> Vec<u64> {
    let mut words = words.to_vec();
    for (place, word) in change {
        words[*place] = *word;
    }
    words
}

/// All changes of a sound state.
pub fn changes(words: &[u64], random: &mut Random) -> Vec<Change> {
    let state = in_use(words);
    let places = places_in_use(words);
    let mut all = Vec::new();
    for place in &places {
        let other = words[random.pick(&places)];
        all.extend(of_one(words, *place, other));
    }
    for _ in 0..OUT_OF_USE {
        let place = random.below(STATE_WORDS);
        if !places.contains(&place) {
            all.push(vec![(place, any_word(random))]);
        }
    }
    for group in groups(&state) {
        all.extend(edges(words, &group));
    }
    all.extend(moves(&state));
    all.extend(held_elsewhere(&state));
    all.extend(other_heads(&state));
    all.extend(below_zero(&state));
    all.retain(|change| changed(words, change) != words);
    all
}

/// The word as 0, all ones, one more and one less, the same in its low 32 bits, another word, and what
/// is just sound or just not any more.
fn of_one(words: &[u64], place: usize, other: u64) -> Vec<Change> {
    let word = words[place];
    let [more, less] = [word.wrapping_add(1), word.wrapping_sub(1)];
    let same_below = word ^ (1 << 32);
    let plain = [0, u64::MAX, more, less, same_below, other].map(|word| vec![(place, word)]);
    let mut all: Vec<Change> = plain.into_iter().chain(edges(words, &[place])).collect();
    all.sort();
    all.dedup();
    all
}

/// Words that can change together: a row's tags, its byte counts, a packet's name with the heads that
/// it is, and all depths.
fn groups(state: &State) -> Vec<Vec<usize>> {
    let rows = 0..state.rows.len();
    let tags = rows.clone().map(|row| vec![START + row, FINISH + row]);
    let bytes = rows.clone().map(|row| vec![BYTES + row, BYTES_THEN + row]);
    let names = state.packets.iter().enumerate().map(|(place, packet)| {
        let is_head = |row: &usize| state.rows[*row].head.after_name == packet.name + 1;
        let heads = rows.clone().filter(is_head).map(|row| HEAD[0] + row);
        heads.chain([NAME + place]).collect()
    });
    let depths = [rows.clone().map(|row| DEPTH + row).collect()];
    tags.chain(bytes).chain(names).chain(depths).collect()
}

/// The greatest numbers by which these words can rise and fall with the state staying sound, and one
/// more.
fn edges(words: &[u64], places: &[usize]) -> Vec<Change> {
    let by = |more: u64, down: bool| -> Option<Change> {
        let moved = |place: &usize| {
            let word = match down {
                true => words[*place].checked_sub(more),
                false => words[*place].checked_add(more),
            };
            Some((*place, word?))
        };
        places.iter().map(moved).collect()
    };
    let sound = |more, down| by(more, down).is_some_and(|c| is_sound(&changed(words, &c)));
    let mut all = Vec::new();
    for down in [false, true] {
        let (mut inside, mut outside) = (0, u64::MAX);
        while outside - inside > 1 {
            let middle = inside + (outside - inside) / 2;
            match sound(middle, down) {
                true => inside = middle,
                false => outside = middle,
            }
        }
        let found = [inside, outside].into_iter().filter(|more| *more > 0);
        all.extend(found.filter_map(|more| by(more, down)));
    }
    all
}

/// Each class right below each other row, with the depth that goes with it.
fn moves(state: &State) -> impl Iterator<Item = Change> + '_ {
    let rows = 0..state.rows.len();
    let below = move |class: usize| {
        rows.clone().map(move |parent| {
            let depth = state.rows[parent].depth + 1;
            vec![(PARENT + class, parent as u64), (DEPTH + class, depth)]
        })
    };
    (1..state.rows.len()).flat_map(below)
}

/// One packet more in each row and one less in each other, but not in all together.
fn held_elsewhere(state: &State) -> impl Iterator<Item = Change> + '_ {
    let rows = 1..state.rows.len();
    let pairs = rows
        .clone()
        .flat_map(move |one| rows.clone().map(move |other| (one, other)));
    pairs
        .filter(|(one, other)| one != other)
        .map(|(one, other)| {
            let [more, less] = [one, other].map(|row| state.rows[row].held);
            vec![
                (HELD + one, more.wrapping_add(1)),
                (HELD + other, less.wrapping_sub(1)),
            ]
        })
}

/// Each row that has a head with the head of each other row, and charged for it.
fn other_heads(state: &State) -> impl Iterator<Item = Change> + '_ {
    let with_head = || (0..state.rows.len()).filter(|row| state.rows[*row].head.after_name > 0);
    let pairs = with_head().flat_map(move |row| with_head().map(move |other| (row, other)));
    pairs.map(|(row, other)| {
        let head = state.rows[other].head;
        let words = [head.after_name, head.length, head.class];
        let places = HEAD.map(|list| list + row);
        let mut change: Change = places.into_iter().zip(words).collect();
        if row > 0 {
            let StateRow { start, share, .. } = state.rows[row];
            let charge = charge(head.length as u32, share as u32);
            change.push((FINISH + row, start.saturating_add(charge)));
        }
        change
    })
}

/// The tags of each row that has a head as if its start were one below 0.
fn below_zero(state: &State) -> impl Iterator<Item = Change> + '_ {
    let rows = (1..).zip(state.rows.iter().skip(1));
    let with_head = rows.filter(|(_, row)| row.head.after_name > 0);
    with_head.map(|(row, StateRow { start, finish, .. })| {
        let charge = finish - start;
        vec![(START + row, u64::MAX), (FINISH + row, charge - 1)]
    })
}

#[cfg(test)]
mod tests {
    use super::*;
    use crate::damaged::wholes;

    #[test]
    fn each_state_has_changes_of_both_kinds() {
        for whole in wholes() {
            assert!(is_sound(&whole.words), "{}", whole.name);
            let all = changes(&whole.words, &mut Random::new(1, 1));
            let sound = |change: &&Change| is_sound(&changed(&whole.words, change));
            let sound = all.iter().filter(sound).count();
            assert!(sound > 60 && all.len() - sound > 60, "{}", whole.name);
        }
    }

    #[test]
    fn every_word_in_use_is_changed() {
        for whole in wholes() {
            let all = changes(&whole.words, &mut Random::new(1, 1));
            let places = places_in_use(&whole.words);
            let alone = |place: &usize| {
                let of_place = all.iter().filter(|c| c.len() == 1 && c[0].0 == *place);
                of_place.count()
            };
            assert!(places.iter().all(|place| alone(place) >= 2));
        }
    }

    /// A virtual time has a greatest number.
    #[test]
    fn edges_are_found() {
        let busy = wholes().into_iter().find(|whole| whole.name == "busy");
        let words = busy.expect("there is one").words;
        let found = edges(&words, &[1_792]);
        let most = 2 * 705_600 * 9_000;
        let values: Vec<u64> = found.iter().map(|change| change[0].1).collect();
        assert_eq!(values, [most, most + 1, 0]);
        for group in groups(&in_use(&words)) {
            let found = edges(&words, &group);
            assert!(found.iter().all(|change| change.len() == group.len()));
        }
    }

    /// Moves below other rows, and heads of other children, can be sound.
    #[test]
    fn some_changes_of_several_words_are_sound() {
        let sound = |change: fn(&State) -> Vec<Change>| {
            let all = wholes().into_iter().flat_map(|whole| {
                let changes = change(&in_use(&whole.words)).into_iter();
                let after = changes.map(|change| changed(&whole.words, &change));
                let others = after.filter(|words| *words != whole.words);
                others.map(|words| is_sound(&words)).collect::<Vec<_>>()
            });
            let (sound, unsound): (Vec<bool>, Vec<bool>) = all.partition(|sound| *sound);
            (sound.len(), unsound.len())
        };
        let (below, not) = sound(|state| moves(state).collect());
        assert!(below > 10 && not > 10);
        let (heads, not) = sound(|state| other_heads(state).collect());
        assert!(heads > 0 && not > 10);
        let (elsewhere, not) = sound(|state| held_elsewhere(state).collect());
        assert!(elsewhere == 0 && not > 10);
        let (below, not) = sound(|state| below_zero(state).collect());
        assert!(below == 0 && not > 10);
    }
}
