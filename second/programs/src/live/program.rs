//! The program `live` from its arguments to the bytes it prints and keeps.

use std::ffi::OsString;

use crate::csv::report_text;
use crate::files::Source;
use crate::live::live_box::LiveBox;
use crate::live::sentences::event_sentence;
use crate::live::state_file::StateFile;
use crate::live::words::STATE_WORDS;
use crate::live::{fresh, LiveAnswer};
use crate::print::{answers_text, heading_text, line_text, Form};
use crate::program::{faulty_events, read_table, refused_table, Response, DONE, REFUSED};
use crate::report::REPORT_WIDTH;
use crate::response::{hand_over, say, sentence};
use crate::table::Table;
use crate::text::Reader;

/// Bytes of a list that are read at once.
const PIECE: usize = 65_536;

/// Answers the arguments that follow the program's name. Answers to events are printed as they come.
pub fn respond(arguments: &[OsString]) -> Response {
    call(arguments).unwrap_or_else(|said| said)
}

/// The error is what is said where something goes wrong.
fn call(arguments: &[OsString]) -> Result<Response, Response> {
    match arguments {
        [what, table, state] if what == "fresh" => {
            make_fresh(Source::new(table), StateFile::new(state)?)
        }
        [what, state, events] if what == "events" => {
            take_events(StateFile::new(state)?, Source::new(events))
        }
        [what, state] if what == "report" => print_report(StateFile::new(state)?),
        _ => {
            let wanted = "give what to do and its files, live fresh TABLE STATE, \
                          live events STATE EVENTS or live report STATE";
            Err(Response::misunderstood(wanted))
        }
    }
}

fn make_fresh(file: Source, state: StateFile) -> Result<Response, Response> {
    let columns = read_table(Form::Live, file)?;
    let table = columns.slices();
    let mut words = vec![0; STATE_WORDS];
    let LiveAnswer { answer, .. } = fresh(table, &mut words);
    if answer.number != 0 {
        return Err(refused_table(Form::Live, file, &table, &[answer]));
    }
    state.replace(&words)?;
    Ok(Response::done(answers_text(Form::Live, [&answer])))
}

fn print_report(file: StateFile) -> Result<Response, Response> {
    let (_, state) = file.read()?;
    let table = state.table();
    let identifiers: Vec<u32> = table.rows.iter().map(|row| row.identifier).collect();
    let mut report = vec![0; REPORT_WIDTH * identifiers.len()];
    let mut lags = vec![0; identifiers.len()];
    LiveBox::of(&state, &table).report(&mut report, &mut lags);
    Ok(Response::done(report_text(&identifiers, &report, &lags)))
}

fn take_events(file: StateFile, list: Source) -> Result<Response, Response> {
    let (words, state) = file.read()?;
    let table = state.table();
    let mut events = Events {
        file,
        list,
        table: &table,
        live_box: LiveBox::of(&state, &table),
        words,
        status: DONE,
    };
    hand_over(heading_text(Form::Live).as_bytes())?;
    events.take_all()?;
    Ok(Response::ended(events.status))
}

/// The events of one call.
struct Events<'a> {
    file: StateFile<'a>,
    list: Source<'a>,
    table: &'a Table,
    live_box: LiveBox<'a>,
    words: Vec<u64>,
    status: u8,
}

/// What came of the events of one piece of the list.
#[derive(Default)]
struct Answered {
    answers: String,
    sentences: Vec<u8>,
    /// Whether an event was taken.
    changed: bool,
}

impl Events<'_> {
    fn take_all(&mut self) -> Result<(), Response> {
        let open = self.list.open()?;
        let mut reader = Reader::default();
        loop {
            let piece = self.list.read_piece(&open, PIECE)?;
            let mut answered = Answered::default();
            let read = match piece.is_empty() {
                true => reader.end(),
                false => reader.take(&piece, |line, event| self.take(line, event, &mut answered)),
            };
            self.hand_over(&answered)?;
            read.map_err(|fault| faulty_events(self.list, &fault))?;
            if piece.is_empty() {
                return Ok(());
            }
        }
    }

    fn take(&mut self, line: usize, event: [u32; 2], answered: &mut Answered) {
        let [class, length] = event;
        let LiveAnswer { answer, packet } = self.live_box.event(class, length, &mut self.words);
        let [number, place, second, count] = answer.numbers();
        let text = line_text([number, place, second, count, packet]);
        answered.answers.push_str(&text);
        if number == 0 {
            answered.changed = true;
            return;
        }
        let rest = event_sentence(number, self.table, line, event);
        let said = sentence(number, Some(self.list.name()), &rest);
        answered.sentences.extend(said);
        self.status = REFUSED;
    }

    /// The state is kept before its answers are seen.
    fn hand_over(&self, answered: &Answered) -> Result<(), Response> {
        if answered.changed {
            self.file.replace(&self.words)?;
        }
        hand_over(answered.answers.as_bytes())?;
        say(&answered.sentences);
        Ok(())
    }
}
