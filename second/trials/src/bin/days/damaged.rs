//! States with some words changed: both programs refuse them with 20, or neither.

use crate::changes::{changed, Change};
use crate::day::{LIST, STATE};
use crate::lists::{mixed, restless};
use crate::pair::{wrong, Pair, Tried};
use crate::states::{bytes_of, fill, in_use, permute, places_in_use, raise, state_after, wander};
use crate::tally::{numbers, Met};
use trials::{even_table, random_table, sending, Case, Event, Random, Row, Shape, FINISH};

/// A sound state and what it is.
pub struct Whole {
    pub name: &'static str,
    pub words: Vec<u64>,
    /// A list that is handed over to it.
    list: String,
}

fn packet(class: u32, length: u32) -> Event {
    Event { class, length }
}

/// Two levels, and identifiers up to the largest.
fn two_levels() -> Vec<Row> {
    let row = |identifier, parent, share| Row {
        identifier,
        parent,
        share,
    };
    vec![
        row(1, 0, 0),
        row(65_535, 1, 420),
        row(3, 1, 419),
        row(4, 65_535, 756),
        row(5, 65_535, 7),
    ]
}

/// Sound states of many kinds, the same each time.
pub fn wholes() -> Vec<Whole> {
    let rows = two_levels();
    let busy = [
        packet(4, 100),
        packet(3, 9_000),
        packet(5, 300),
        packet(4, 400),
        FINISH,
        packet(4, 9_000),
        packet(3, 1),
    ];
    let idle = [&busy[..], &[FINISH; 5]].concat();
    let in_part = [packet(3, 50), packet(5, 100), FINISH, FINISH, packet(4, 7)];
    let mut all = vec![
        Whole::new("fresh", &rows, state_after(&rows, &[])),
        Whole::new("busy", &rows, state_after(&rows, &busy)),
        Whole::new("idle again", &rows, state_after(&rows, &idle)),
        Whole::new("idle in part", &rows, state_after(&rows, &in_part)),
    ];
    for (name, great) in [("few to come", false), ("great tags", true)] {
        let mut words = state_after(&rows, &busy);
        raise(&mut words, 1, great);
        all.push(Whole::new(name, &rows, words));
    }
    all.extend(other_tables());
    all
}

/// Those of the greatest depth, and of two classes with two below each.
fn other_tables() -> [Whole; 3] {
    let mut random = Random::new(5, 5);
    let deep = even_table(&[1, 1, 1, 1, 1, 1, 1, 2]);
    let mut moved = state_after(&deep, &restless(&deep, 30, &mut random));
    permute(&mut moved, &mut random);
    let two = even_table(&[2, 2]);
    let classes = sending(&two).into_iter();
    let each: Vec<Event> = classes.map(|class| packet(class, 9)).collect();
    let events = [&each[..], &[FINISH], &each].concat();
    [
        Whole::new("deep, in other rows", &deep, moved),
        Whole::new("deep, fresh", &deep, state_after(&deep, &[])),
        Whole::new("two by two", &two, state_after(&two, &events)),
    ]
}

impl Whole {
    fn new(name: &'static str, rows: &[Row], words: Vec<u64>) -> Whole {
        let classes = sending(rows);
        let [first, last] = [0, classes.len() - 1].map(|place| classes[place]);
        let list = format!("class,length\n0,0\n{first},7\n0,0\n{last},9000\n70000,1\n0,0\n0,0\n");
        Whole { name, words, list }
    }

    /// Both programs over the state with this change.
    pub fn compare(&self, pair: &mut Pair, change: &Change) -> Tried<()> {
        let words = changed(&self.words, change);
        let met = in_use_alike(&self.words, &words).then_some(Met::OutOfUse);
        compare(pair, &words, &self.list, met)
    }
}

fn in_use_alike(one: &[u64], other: &[u64]) -> bool {
    one[0] == other[0] && one[3_072] == other[3_072] && in_use(one) == in_use(other)
}

/// Both programs over these words: the report, and a list of events.
fn compare(pair: &mut Pair, words: &[u64], list: &str, met: Option<Met>) -> Tried<()> {
    let bytes = bytes_of(words);
    pair.put(STATE, &bytes)?;
    pair.put(LIST, list.as_bytes())?;
    let report = pair.ask(&["report", STATE])?;
    if pair.get(STATE)? != bytes {
        return wrong("live report", "the state has changed");
    }
    let events = pair.ask(&["events", STATE, LIST])?;
    let [report, events] = [report, events].map(|printed| numbers(&printed.output) == [20]);
    if report != events || (events && pair.get(STATE)? != bytes) {
        return wrong(
            "live events",
            "a state with 20 has changed, or has it at times",
        );
    }
    pair.tally.met(met.unwrap_or(match events {
        true => Met::Unsound,
        false => Met::Sound,
    }));
    Ok(())
}

/// A small random state with some words changed: at random, or such that it stays sound.
pub fn several(pair: &mut Pair, seed: u64, number: usize) -> Tried<()> {
    let mut random = Random::new(seed ^ 0x5eed, number as u64);
    let shape = random.pick(&[Shape::Two, Shape::Groups, Shape::Chain, Shape::Flat]);
    let rows = random_table(shape, 7, &mut random);
    let list = |random: &mut Random| {
        let events = mixed(&rows, 20, random);
        let rows = Vec::new();
        Case { rows, events }
    };
    let mut words = state_after(&rows, &list(&mut random).events);
    fill(&mut words, &mut random);
    if random.one_in(2) {
        permute(&mut words, &mut random);
    }
    if random.one_in(3) {
        let to_come = random.below(4) as u32;
        raise(&mut words, to_come, random.one_in(2));
    }
    if number.is_multiple_of(2) {
        wander(&mut words, 30, &mut random);
    } else {
        let places = places_in_use(&words);
        for _ in 0..random.between(2, 3) {
            let place = random.pick(&places);
            words[place] = words[random.pick(&places)].wrapping_add(random.below(3) as u64);
        }
    }
    compare(pair, &words, &list(&mut random).event_text(), None)
}
