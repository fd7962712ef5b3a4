//! Days of a live box: a table, a list cut into several calls, and the report in between.

use std::fs;
use std::process::Command;

use crate::lists::{filling, mixed, restless};
use crate::pair::{wrong, Pair, Tried};
use crate::shown::whole_print;
use crate::states::{bytes_of, fill, permute, raise, wander, words_of};
use crate::tally::{answers, Met};
use second::{MOST_EVENTS, WHOLE};
use trials::{
    damage, put_in_list, put_in_table, random_table, Case, End, Event, Fed, Files, Printed, Random,
    Row, FAULTS, FINISH, SHAPES, TEXT_FAULTS,
};

#[derive(Clone, Copy, Debug)]
enum Kind {
    /// With events of all kinds.
    Plain,
    /// With no room left, and room again.
    Full,
    /// With few packets left that can be counted.
    Last,
    /// The same, with tags and byte counts as great as they can be.
    Great,
    /// With its classes in other rows.
    Permuted,
    /// With states that no events lead to.
    Wandered,
    /// With lists that cannot be read.
    Faulty,
    /// With a table that is refused.
    Refused,
    /// With a table's text that has a fault.
    Text,
}

use Kind::{Faulty, Full, Great, Last, Permuted, Plain, Refused, Text, Wandered};

const ROUND: [Kind; 20] = [
    Plain, Plain, Plain, Plain, Plain, Plain, Plain, Full, Last, Last, Great, Great, Permuted,
    Permuted, Wandered, Wandered, Faulty, Faulty, Refused, Text,
];

/// Refusals of a table, each in its turn.
const REFUSALS: [u32; 9] = [1, 4, 5, 6, 7, 8, 9, 10, 15];

pub const TABLE: &str = "table.csv";
pub const STATE: &str = "state";
pub const LIST: &str = "events.csv";

/// What a trial with this number is, for a reader.
pub fn name(number: usize) -> String {
    format!("a day, {:?}", ROUND[number % ROUND.len()])
}

pub fn day(pair: &mut Pair, seed: u64, number: usize) -> Tried<()> {
    let mut random = Random::new(seed, number as u64);
    let kind = ROUND[number % ROUND.len()];
    let turn = number / ROUND.len();
    pair.clear()?;
    let rows = random_table(random.pick(&SHAPES), 1 + number as u32 % WHOLE, &mut random);
    match kind {
        Refused => {
            let refusal = REFUSALS[turn % REFUSALS.len()];
            let mut case = Case {
                rows,
                events: Vec::new(),
            };
            damage(&mut case, refusal, random.below(MOST_EVENTS), &mut random);
            refused_table(pair, case.table_text().as_bytes(), &mut random)
        }
        Text => {
            let events = Vec::new();
            let mut files = Files::of(&Case { rows, events });
            put_in_table(
                &mut files,
                TEXT_FAULTS[turn % TEXT_FAULTS.len()],
                &mut random,
            );
            refused_table(pair, &files.table.unwrap_or_default(), &mut random)
        }
        _ => Day::begin(pair, kind, rows, random)?.pass(),
    }
}

/// No state comes of such a table, and one that is there stays.
fn refused_table(pair: &mut Pair, table: &[u8], random: &mut Random) -> Tried<()> {
    pair.put(TABLE, table)?;
    if random.one_in(2) {
        pair.put(STATE, random.pick(&[&b""[..], b"a state", &[0; 55_296]]))?;
    }
    let before = pair.get(STATE).ok();
    let printed = match random.one_in(2) {
        true => pair.ask(&["fresh", TABLE, STATE])?,
        false => pair.ask_fed(&["fresh", "-", STATE], |folder| {
            Fed::File(folder.join(TABLE))
        })?,
    };
    match printed.end == End::Status(1) && pair.get(STATE).ok() == before {
        true => Ok(()),
        false => wrong(
            "live fresh, with a table that is refused",
            &whole_print(&printed),
        ),
    }
}

struct Day<'a> {
    pair: &'a mut Pair,
    kind: Kind,
    rows: Vec<Row>,
    random: Random,
    /// The events that were accepted, and the packets that they put on the line.
    accepted: Vec<Event>,
    order: Vec<u32>,
    /// Refusals so far.
    refused: Vec<u32>,
    /// Whether these are all events since the fresh state.
    known: bool,
}

impl<'a> Day<'a> {
    fn begin(pair: &'a mut Pair, kind: Kind, rows: Vec<Row>, random: Random) -> Tried<Day<'a>> {
        let events = Vec::new();
        let case = Case { rows, events };
        pair.put(TABLE, case.table_text().as_bytes())?;
        let printed = pair.ask(&["fresh", TABLE, STATE])?;
        if answers(&printed.output) != [[0; 5]] {
            return wrong("live fresh", &whole_print(&printed));
        }
        let mut day = Day {
            pair,
            kind,
            rows: case.rows,
            random,
            accepted: Vec::new(),
            order: Vec::new(),
            refused: Vec::new(),
            known: !matches!(kind, Last | Great | Wandered),
        };
        day.change(fill)?;
        Ok(day)
    }

    fn pass(mut self) -> Tried<()> {
        let events = self.events();
        let calls = self.random.between(1, 6);
        let changed = self.random.below(calls);
        for (call, part) in parts(&events, calls).enumerate() {
            match self.kind {
                Last | Great if call == changed => {
                    let to_come = self.random.pick(&[0, 1, 2, 5, 20]);
                    let great = matches!(self.kind, Great);
                    self.change(|words, _| raise(words, to_come, great))?;
                }
                Permuted => self.change(permute)?,
                Wandered => self.change(|words, random| wander(words, 20, random))?,
                _ => {}
            }
            self.call(part)?;
            if self.random.one_in(2) {
                self.report()?;
            }
        }
        self.replay()
    }

    fn events(&mut self) -> Vec<Event> {
        let (rows, random) = (&self.rows, &mut self.random);
        let most = random.pick(&[20, 60, 200]);
        match self.kind {
            Full => filling(rows, random),
            Last | Great if random.one_in(8) => filling(rows, random),
            Last | Great | Wandered => restless(rows, most, random),
            _ => mixed(rows, most, random),
        }
    }

    /// Changes the words of both states alike.
    fn change(&mut self, change: impl FnOnce(&mut [u64], &mut Random)) -> Tried<()> {
        let Some(mut words) = words_of(&self.pair.get(STATE)?) else {
            return wrong("live", "its state has another size");
        };
        change(&mut words, &mut self.random);
        Ok(self.pair.put(STATE, &bytes_of(&words))?)
    }

    /// Hands over some events, as a file or on standard input.
    fn call(&mut self, events: &[Event]) -> Tried<()> {
        let mut text = self.text(events);
        let fault = matches!(self.kind, Faulty) && self.random.one_in(2);
        if fault {
            let fault = self.random.pick(&FAULTS);
            put_in_list(&mut text, fault, &mut self.random);
        }
        self.pair.put(LIST, &text)?;
        let printed = match self.random.below(4) {
            0 => {
                let fed = |_: &_| Fed::Pipe(text.clone());
                self.pair.ask_fed(&["events", STATE, "-"], fed)?
            }
            1 => {
                let arguments = ["events", STATE, "-"];
                self.pair
                    .ask_fed(&arguments, |folder| Fed::File(folder.join(LIST)))?
            }
            _ => self.pair.ask(&["events", STATE, LIST])?,
        };
        match printed.end {
            End::Status(2) if fault => self.pair.tally.met(Met::CannotRead),
            End::Status(0 | 1) => {}
            _ => return wrong("live events", &whole_print(&printed)),
        }
        match fault {
            true => {
                self.known = false;
                Ok(())
            }
            false => self.note(events, &printed),
        }
    }

    fn text(&mut self, events: &[Event]) -> Vec<u8> {
        let case = Case {
            rows: Vec::new(),
            events: events.to_vec(),
        };
        let mut files = Files::of(&case);
        files.disguise(&mut self.random);
        files.events.unwrap_or_default()
    }

    /// Notes what was answered.
    fn note(&mut self, events: &[Event], printed: &Printed) -> Tried<()> {
        let answers = answers(&printed.output);
        if answers.len() != events.len() {
            return wrong("live events", "not every event is answered");
        }
        for (event, [number, _, _, count, packet]) in events.iter().zip(answers) {
            if number != 0 {
                self.refused.push(number);
                continue;
            }
            self.accepted.push(*event);
            self.order.extend((count == 1).then_some(packet));
            if *event == FINISH && self.refused.contains(&21) {
                self.pair.tally.met(Met::FinishedLast);
            }
            if *event != FINISH && self.refused.contains(&22) {
                self.pair.tally.met(Met::LeftFull);
            }
        }
        Ok(())
    }

    fn report(&mut self) -> Tried<Printed> {
        let printed = self.pair.ask(&["report", STATE])?;
        let text = String::from_utf8_lossy(&printed.output);
        let mut fields = text.split([',', '\r']);
        if fields.any(|field| field.parse().is_ok_and(|number: u64| number >> 63 == 1)) {
            self.pair.tally.met(Met::Great);
        }
        Ok(printed)
    }

    /// The run of the accepted events has the same order, and the same report where the rows stand as
    /// they did.
    fn replay(mut self) -> Tried<()> {
        let printed = self.report()?;
        if !self.known || self.accepted.len() > MOST_EVENTS {
            return Ok(());
        }
        let case = Case {
            rows: Vec::new(),
            events: self.accepted,
        };
        let folder = &self.pair.folders[0];
        fs::write(folder.join(LIST), case.event_text())?;
        let mut command = Command::new(&self.pair.programs.replay);
        let run = Printed::by(command.args([TABLE, LIST]), &Fed::Nothing, folder)?;
        fs::copy(folder.join(LIST), self.pair.folders[1].join(LIST))?;
        let order: String = self
            .order
            .iter()
            .map(|packet| format!("{packet}\r\n"))
            .collect();
        let count = self.order.len();
        let before = format!("answer,place,second,count\r\n0,0,0,{count}\r\norder\r\n{order}");
        let rest = run.output.strip_prefix(before.as_bytes());
        let same = |rest: &[u8]| matches!(self.kind, Permuted) || rest == printed.output;
        if !rest.is_some_and(same) {
            return wrong("replay of the accepted events", &whole_print(&run));
        }
        self.pair.tally.met(Met::Replayed);
        Ok(())
    }
}

/// The list in so many parts, of which some may be empty.
fn parts(events: &[Event], count: usize) -> impl Iterator<Item = &[Event]> {
    let size = events.len().div_ceil(count).max(1);
    let part = move |number: usize| {
        let first = (number * size).min(events.len());
        &events[first..(first + size).min(events.len())]
    };
    (0..count).map(part)
}
