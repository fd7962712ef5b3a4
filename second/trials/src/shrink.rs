//! Cuts a list or a capture down as long as the two programs still differ on it.

use std::time::{Duration, Instant};

use crate::captures::parts;
use crate::{lines, Files};

/// How long each step may take; after one that takes longer the rest of the round is the last.
const MOST_TIME: Duration = Duration::from_secs(20);

type Lines = Vec<Vec<u8>>;

struct Shrinker<'a> {
    table: Lines,
    /// Of a capture its header and its records.
    events: Lines,
    /// What was there at first, and the arguments.
    given: &'a Files,
    differs: &'a mut dyn FnMut(&Files) -> bool,
    /// When the step began.
    begun: Instant,
}

/// What came of a step.
#[derive(Clone, Copy, PartialEq)]
enum Step {
    Shrunk,
    Nothing,
    Late,
}

/// Drops events or records, then rows, then shortens lengths, until nothing more can go.
pub fn shrink(files: &Files, differs: &mut dyn FnMut(&Files) -> bool) -> Files {
    let of = |bytes: &Option<Vec<u8>>| lines(bytes.as_deref().unwrap_or_default());
    let mut shrinker = Shrinker {
        table: of(&files.table),
        events: match &files.capture {
            Some(capture) => parts(capture.bytes.as_deref().unwrap_or_default()),
            None => of(&files.events),
        },
        given: files,
        differs,
        begun: Instant::now(),
    };
    shrinker.make_plain();
    let steps = [
        Shrinker::drop_events,
        Shrinker::drop_rows,
        Shrinker::shorten_lengths,
    ];
    loop {
        let done = steps.map(|step| shrinker.take(step));
        if done.contains(&Step::Late) || !done.contains(&Step::Shrunk) {
            break;
        }
    }
    shrinker.files(&shrinker.table, &shrinker.events)
}

impl Shrinker<'_> {
    fn files(&self, table: &Lines, events: &Lines) -> Files {
        let mut files = self.given.clone();
        let list = match &mut files.capture {
            Some(capture) => &mut capture.bytes,
            None => &mut files.events,
        };
        for (file, lines) in [(&mut files.table, table), (list, events)] {
            // A file that is not there stays so.
            if let Some(bytes) = file {
                *bytes = lines.concat();
            }
        }
        files
    }

    /// Keeps these lines if the programs still differ on them.
    fn keep(&mut self, table: Lines, events: Lines) -> bool {
        if self.is_late() || (table == self.table && events == self.events) {
            return false;
        }
        let files = self.files(&table, &events);
        let differs = (self.differs)(&files);
        if differs {
            self.table = table;
            self.events = events;
        }
        differs
    }

    fn take(&mut self, step: fn(&mut Self) -> bool) -> Step {
        self.begun = Instant::now();
        match step(self) {
            _ if self.is_late() => Step::Late,
            true => Step::Shrunk,
            false => Step::Nothing,
        }
    }

    fn is_late(&self) -> bool {
        self.begun.elapsed() > MOST_TIME
    }

    fn keep_events(&mut self, events: Lines) -> bool {
        self.keep(self.table.clone(), events)
    }

    /// The usual line ends and no leading zeros, as far as lines can be read.
    fn make_plain(&mut self) {
        let all_plain = |lines: &Lines| lines.iter().map(|line| plain(line)).collect();
        self.keep(all_plain(&self.table), self.events.clone());
        self.keep_events(all_plain(&self.events));
    }

    /// Tries stretches of the lines below the heading, large ones first and those at the end first.
    fn each_stretch(
        &mut self,
        lines: fn(&Self) -> usize,
        mut try_out: impl FnMut(&mut Self, usize, usize),
    ) {
        let mut size = lines(self);
        while size > 0 {
            let mut end = lines(self);
            while end > 1 && !self.is_late() {
                let start = end.saturating_sub(size).max(1);
                try_out(self, start, end);
                end = start.min(lines(self));
            }
            size /= 2;
        }
    }

    fn drop_events(&mut self) -> bool {
        let before = self.events.len();
        self.each_stretch(|shrink| shrink.events.len(), Self::drop_stretch);
        self.events.len() < before
    }

    /// Without some events: and without finishes that are idle then, or as it is,
    /// or without a later finish as well.
    fn drop_stretch(&mut self, start: usize, end: usize) {
        let mut rest = self.events.clone();
        rest.drain(start..end);
        if self.keep_events(without_idle_finishes(&rest)) || self.keep_events(rest.clone()) {
            return;
        }
        let later = rest.iter().skip(start).position(|line| is_finish(line));
        if let (1, Some(later)) = (end - start, later) {
            rest.remove(start + later);
            self.keep_events(rest);
        }
    }

    fn drop_rows(&mut self) -> bool {
        let before = self.table.len();
        self.each_stretch(
            |shrink| shrink.table.len(),
            |shrink, start, end| {
                let mut rest = shrink.table.clone();
                rest.drain(start..end);
                shrink.keep(rest, shrink.events.clone());
            },
        );
        self.table.len() < before
    }

    fn shorten_lengths(&mut self) -> bool {
        let mut shortened = false;
        for place in 1..self.events.len() {
            while !self.is_late() && self.shorten(place) {
                shortened = true;
            }
        }
        shortened
    }

    /// Shortens this length together with all equal ones, or alone.
    fn shorten(&mut self, place: usize) -> bool {
        let Some([_, length]) = numbers(&self.events[place]) else {
            return false;
        };
        let shorter = [1, 10, 100, length / 2, length.saturating_sub(1)];
        let mut fitting = shorter.into_iter().filter(|s| 0 < *s && *s < length);
        fitting.any(|shorter| {
            let mut alone = self.events.clone();
            set_length(&mut alone[place], length, shorter);
            let mut together = self.events.clone();
            let lines = together.iter_mut();
            lines.for_each(|line| set_length(line, length, shorter));
            self.keep_events(together) || self.keep_events(alone)
        })
    }
}

/// Gives the line another length if it has this one.
fn set_length(line: &mut Vec<u8>, from: u32, to: u32) {
    if let Some([class, length]) = numbers(line) {
        if length == from {
            *line = format!("{class},{to}\n").into_bytes();
        }
    }
}

/// The line's numbers, if it has so many and an end.
fn numbers<const COUNT: usize>(line: &[u8]) -> Option<[u32; COUNT]> {
    let body = std::str::from_utf8(line.strip_suffix(b"\n")?).ok()?;
    let fields = body.strip_suffix('\r').unwrap_or(body).split(',');
    let read = fields.map(|field| match field.starts_with('+') {
        true => None,
        false => field.parse().ok(),
    });
    read.collect::<Option<Vec<u32>>>()?.try_into().ok()
}

fn plain(line: &[u8]) -> Vec<u8> {
    if let Some([identifier, parent, share]) = numbers(line) {
        return format!("{identifier},{parent},{share}\r\n").into_bytes();
    }
    if let Some([class, length]) = numbers(line) {
        return format!("{class},{length}\n").into_bytes();
    }
    match line {
        b"identifier,parent,share\n" => b"identifier,parent,share\r\n".to_vec(),
        b"class,length\r\n" => b"class,length\n".to_vec(),
        _ => line.to_vec(),
    }
}

fn is_finish(line: &[u8]) -> bool {
    numbers(line) == Some([0, 0])
}

fn without_idle_finishes(events: &Lines) -> Lines {
    let mut held = 0;
    let mut rest = Vec::new();
    for (place, line) in events.iter().enumerate() {
        if place > 0 && is_finish(line) {
            if held == 0 {
                continue;
            }
            held -= 1;
        } else if place > 0 {
            held += 1;
        }
        rest.push(line.clone());
    }
    rest
}

#[cfg(test)]
mod tests {
    use super::*;
    use crate::captures::{Capture, CaptureCase, LAYOUTS};
    use crate::{even_table, random_events, random_table, Case, Event, Random, Shape, FINISH};

    fn list() -> Files {
        let mut random = Random::new(5, 0);
        let rows = random_table(Shape::Full, 840, &mut random);
        let mut events = random_events(&rows, 3000, false, &mut random);
        let class = rows[rows.len() - 1].identifier;
        let length = 1777;
        events.push(Event { class, length });
        events.push(FINISH);
        Files::of(&Case { rows, events })
    }

    fn event_lines(files: &Files) -> Lines {
        lines(files.events.as_deref().expect("there are events"))
    }

    fn text(bytes: &Option<Vec<u8>>) -> String {
        String::from_utf8_lossy(bytes.as_deref().expect("the file is there")).into_owned()
    }

    #[test]
    fn a_difference_in_one_event_is_cut_down_to_that_event() {
        let long = |line: &Vec<u8>| numbers(line).is_some_and(|[_, length]| length > 1700);
        let small = shrink(&list(), &mut |files| event_lines(files).iter().any(long));
        assert_eq!(text(&small.table), "identifier,parent,share\r\n");
        let events = event_lines(&small);
        assert_eq!(events.len(), 2);
        assert_eq!(numbers(&events[1]).map(|[_, length]| length), Some(1701));
    }

    #[test]
    fn equal_lengths_are_shortened_together() {
        let length = |line: &Vec<u8>| numbers(line).map(|[_, length]| length);
        let equal = |files: &Files| {
            let lengths: Vec<u32> = event_lines(files).iter().filter_map(length).collect();
            lengths.len() == 2 && lengths[0] == lengths[1]
        };
        let events = b"class,length\n5,2048\n6,2048\n".to_vec();
        let files = Files {
            events: Some(events),
            ..Files::default()
        };
        let small = shrink(&files, &mut |files| equal(files));
        assert_eq!(text(&small.events), "class,length\n5,1\n6,1\n");
    }

    #[test]
    fn rows_that_the_difference_needs_stay() {
        let files = list();
        let rows = lines(files.table.as_deref().expect("there is a table"));
        let needed = rows[100].clone();
        let small = shrink(&files, &mut |files| {
            let rows = lines(files.table.as_deref().unwrap_or_default());
            rows.contains(&needed)
        });
        assert_eq!(text(&small.events), "class,length\n");
        let expected = [b"identifier,parent,share\r\n".to_vec(), needed].concat();
        assert_eq!(small.table, Some(expected));
    }

    #[test]
    fn an_accepted_list_stays_without_idle_finishes() {
        let balanced = |files: &Files| {
            let events = event_lines(files);
            let finishes = events.iter().filter(|line| is_finish(line)).count();
            finishes > 2 && without_idle_finishes(&events) == events
        };
        let small = shrink(&list(), &mut |files| balanced(files));
        assert!(balanced(&small));
        assert_eq!(event_lines(&small).len(), 7);
    }

    #[test]
    fn other_line_ends_go_unless_they_are_the_difference() {
        let mut files = list();
        files.table = Some(text(&files.table).replace("\r\n", "\n").into_bytes());
        files.events = Some(text(&files.events).replace('\n', "\r\n").into_bytes());
        let any = shrink(&files, &mut |files| event_lines(files).len() > 1);
        assert!(!text(&any.events).contains('\r'));
        assert_eq!(text(&any.table), "identifier,parent,share\r\n");
        let cr = shrink(&files, &mut |files| text(&files.events).contains("\r\n"));
        assert_eq!(text(&cr.events), "class,length\r\n");
        let lf = shrink(&files, &mut |files| !text(&files.table).contains('\r'));
        assert_eq!(text(&lf.table), "identifier,parent,share\n");
    }

    #[test]
    fn records_are_dropped_as_events_are() {
        let record = |stamp| LAYOUTS[3].record(stamp, 100, 46);
        let case = CaptureCase {
            capture: Capture::new(LAYOUTS[3], (0..300).map(record).collect()),
            rows: even_table(&[3]),
            classes: [2, 3, 4],
            rate: 1,
        };
        let mut files = case.files();
        let needed = parts(&case.capture.bytes())[200].clone();
        let has_it = |files: &Files| {
            let capture = files.capture.as_ref().expect("there is a capture");
            parts(capture.bytes.as_deref().unwrap_or_default()).contains(&needed)
        };
        let small = shrink(&files, &mut |files| has_it(files));
        assert_eq!(text(&small.table), "identifier,parent,share\r\n");
        let alone = Capture::new(LAYOUTS[3], vec![record(199)]);
        let capture = files.capture.as_mut().expect("there is a capture");
        capture.bytes = Some(alone.bytes());
        assert_eq!(small.capture, files.capture);
    }

    #[test]
    fn a_table_alone_is_cut_down_and_stays_alone() {
        let files = Files {
            events: None,
            alone: true,
            ..list()
        };
        let rows = lines(files.table.as_deref().expect("there is a table"));
        let small = shrink(&files, &mut |files| {
            let table = files.table.as_deref().unwrap_or_default();
            files.alone && lines(table).contains(&rows[200])
        });
        let table = [b"identifier,parent,share\r\n".to_vec(), rows[200].clone()];
        let expected = Files {
            table: Some(table.concat()),
            ..files.clone()
        };
        assert_eq!(small, expected);
    }

    #[test]
    fn a_missing_file_stays_missing() {
        let mut files = list();
        files.table = None;
        let small = shrink(&files, &mut |_| true);
        assert_eq!(small.table, None);
        assert_eq!(text(&small.events), "class,length\n");
    }
}
