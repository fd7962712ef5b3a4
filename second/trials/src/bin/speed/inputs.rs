//! The lists and captures that are timed.

use second::MOST_EVENTS;
use trials::captures::{Capture, CaptureCase, Layout, LAYOUTS, MOST_RECORDS};
use trials::{even_table, sending, steady_case, Files, Random};

/// Bytes a second that a capture's line carries, and microseconds from one packet to the next at
/// most. Packets come somewhat faster than that, so that the line is busy.
const RATE: u32 = 1_250_000;
const MOST_GAP: usize = 850;

/// Original lengths of a capture's packets, and bytes of each that are included at most.
const LENGTHS: [u32; 4] = [40, 120, 576, 1500];
const INCLUDED: u32 = 64;

/// One list: how many classes each row has below it, level by level, and how many events; or a
/// capture, and how many records.
pub struct Input {
    pub name: &'static str,
    fans: &'static [usize],
    pub events: usize,
    layout: Option<Layout>,
}

impl Input {
    /// How many rows the table has.
    pub fn rows(&self) -> usize {
        even_table(self.fans).len()
    }

    pub fn files(&self) -> Files {
        match self.layout {
            None => Files::of(&steady_case(self.fans, self.events)),
            Some(layout) => capture_case(self.fans, layout, self.events).files(),
        }
    }
}

/// Lists or captures that belong into one table.
pub struct Part {
    pub title: &'static str,
    /// What they are, and what there are so many of in each.
    pub columns: [&'static str; 2],
    pub inputs: Vec<Input>,
}

pub fn parts() -> Vec<Part> {
    vec![
        Part {
            title: "Starting a program, and lists of full size:",
            columns: LISTS,
            inputs: shapes(),
        },
        Part {
            title: "By the number of rows, all classes under the root:",
            columns: LISTS,
            inputs: by_rows(),
        },
        Part {
            title: "By the number of events, 255 classes under the root:",
            columns: LISTS,
            inputs: by_events(),
        },
        Part {
            title: "Captures, whose packets go to three of 12 classes in three groups:",
            columns: ["Capture", "Records"],
            inputs: captures(),
        },
    ]
}

const LISTS: [&str; 2] = ["List", "Events"];

fn input(name: &'static str, fans: &'static [usize], events: usize) -> Input {
    Input {
        name,
        fans,
        events,
        layout: None,
    }
}

fn shapes() -> Vec<Input> {
    vec![
        input("nothing to do", &[1], 0),
        input("flat, 255 classes", &[255], MOST_EVENTS),
        input(
            "depth 8, 64 classes",
            &[2, 2, 2, 2, 2, 2, 1, 1],
            MOST_EVENTS,
        ),
        input("two levels, 15 x 16 classes", &[15, 16], MOST_EVENTS),
    ]
}

fn by_rows() -> Vec<Input> {
    let fans: [&[usize]; 4] = [&[1], &[15], &[63], &[255]];
    fans.map(|fans| input("flat", fans, MOST_EVENTS)).into()
}

fn by_events() -> Vec<Input> {
    let events = [4096, 8192, 16_384, 32_768, MOST_EVENTS];
    events.map(|events| input("flat", &[255], events)).into()
}

fn captures() -> Vec<Input> {
    let of = |(name, layout, events): (_, Layout, _)| Input {
        name,
        fans: &[3, 4],
        events,
        layout: Some(layout),
    };
    let [low_micro, _, _, high_nano] = LAYOUTS;
    [
        ("no record", low_micro, 0),
        ("low byte first, microseconds", low_micro, MOST_RECORDS),
        ("high byte first, nanoseconds", high_nano, MOST_RECORDS),
    ]
    .map(of)
    .into()
}

/// So many packets of all code points, for the first, the middle and the last class.
fn capture_case(fans: &[usize], layout: Layout, records: usize) -> CaptureCase {
    let rows = even_table(fans);
    let sending = sending(&rows);
    let last = sending.len() - 1;
    let mut random = Random::new(3, records as u64);
    let mut stamp = 0;
    let record = |_| {
        let length = random.pick(&LENGTHS);
        let mut record = layout.record(stamp, length, random.below(64) as u8);
        record.included = length.min(INCLUDED);
        record.packet.resize(record.included as usize, 0);
        stamp += random.below(MOST_GAP) as u64;
        record
    };
    CaptureCase {
        capture: Capture::new(layout, (0..records).map(record).collect()),
        classes: [0, last / 2, last].map(|place| sending[place]),
        rows,
        rate: RATE,
    }
}

#[cfg(test)]
mod tests {
    use super::*;
    use trials::captures::{time, MOST_CAPTURE};

    #[test]
    fn every_list_is_accepted() {
        let inputs = parts().into_iter().flat_map(|part| part.inputs);
        for input in inputs.filter(|input| input.layout.is_none()) {
            assert_eq!(steady_case(input.fans, input.events).answer().number, 0);
        }
    }

    #[test]
    fn captures_fit_and_keep_the_line_busy() {
        for layout in LAYOUTS {
            let case = capture_case(&[3, 4], layout, MOST_RECORDS);
            assert!(case.capture.bytes().len() <= MOST_CAPTURE);
            let records = &case.capture.records;
            let sending: u64 = records.iter().map(|r| time(r.original, RATE)).sum();
            let last = records[records.len() - 1].stamp(layout);
            assert!(last < sending && sending < 2 * last);
        }
    }
}
