//! Counts captures: their answers, and of those that are done their layouts, and the finishes that
//! fall on an arrival.

use std::collections::BTreeSet;
use std::ops::AddAssign;

use crate::answers::Answers;
use crate::tally::too_few;
use trials::captures::{Layout, LAYOUTS};
use trials::Files;

/// Captures lend slices that are long enough, and their lists have no finish too many.
const NEVER: [&str; 5] = [
    "answer 3",
    "answer 14",
    "sheet",
    "sheet that outgrows",
    "tree",
];

/// How often each other answer is wanted among the captures of a default run.
const WANTED: u64 = 8;

/// What is wanted in each layout: captures that are done, finishes that fall on an arrival, and of
/// these those after which a packet that had waited goes on the line.
const WANTED_IN_LAYOUT: Done = Done {
    captures: 36,
    packets: 1000,
    ties: 150,
    waited: 100,
};

#[derive(Clone, Debug, Default, PartialEq, Eq)]
pub struct Captured {
    answers: Answers,
    done: [Done; LAYOUTS.len()],
}

#[derive(Clone, Copy, Debug, Default, PartialEq, Eq)]
struct Done {
    captures: u64,
    packets: u64,
    ties: u64,
    waited: u64,
}

impl Captured {
    /// One capture more, with its answer and what is printed for it.
    pub fn add(&mut self, answer: usize, files: &Files, output: &[u8]) {
        self.answers.add(answer);
        let bytes = files
            .capture
            .as_ref()
            .and_then(|file| file.bytes.as_deref());
        let layout = bytes.and_then(Layout::of);
        let place = LAYOUTS.iter().position(|known| Some(*known) == layout);
        if let (Some(place), Some(packets)) = (place, packets(output)) {
            self.done[place] += Done::of(&packets);
        }
    }

    pub fn sum(&self) -> u64 {
        self.answers.sum()
    }

    /// A line for all answers, and one for each layout.
    pub fn text(&self) -> String {
        let answers = self.answers.texts(&NEVER).join(", ");
        let line = |(layout, done): (&Layout, &Done)| {
            format!(
                "captures done, {layout}: {}, packets: {}, finishes at an arrival: {}, \
                 with a packet waiting: {}\n",
                done.captures, done.packets, done.ties, done.waited
            )
        };
        let layouts: String = LAYOUTS.iter().zip(&self.done).map(line).collect();
        format!("captures {answers}\n{layouts}")
    }

    /// Sentences on what came up too seldom, or must not come up.
    pub fn shortages(&self) -> Vec<String> {
        let answers = self.answers.shortages(&NEVER, WANTED).into_iter();
        let layouts = LAYOUTS.iter().zip(&self.done);
        answers
            .map(|said| format!("of captures: {said}"))
            .chain(layouts.flat_map(|(layout, done)| done.shortages(layout)))
            .collect()
    }
}

impl AddAssign for Captured {
    fn add_assign(&mut self, more: Captured) {
        self.answers += more.answers;
        for (done, more) in self.done.iter_mut().zip(more.done) {
            *done += more;
        }
    }
}

impl Done {
    fn of(packets: &[Packet]) -> Done {
        let arrivals: BTreeSet<u64> = packets.iter().map(|packet| packet.arrived).collect();
        let count = |is: &dyn Fn(&Packet) -> bool| {
            packets.iter().filter(|packet| is(packet)).count() as u64
        };
        Done {
            captures: 1,
            packets: packets.len() as u64,
            ties: count(&|packet| arrivals.contains(&packet.finished)),
            waited: count(&|p| p.arrived < p.sent && arrivals.contains(&p.sent)),
        }
    }

    fn shortages(&self, layout: &Layout) -> Vec<String> {
        let wanted = WANTED_IN_LAYOUT;
        let counts = [
            ("a capture that is done", self.captures, wanted.captures),
            ("a packet", self.packets, wanted.packets),
            ("a finish at an arrival", self.ties, wanted.ties),
            ("one with a packet waiting", self.waited, wanted.waited),
        ];
        let said = |(name, count, wanted)| too_few(&format!("{layout}: {name}"), count, wanted);
        counts.into_iter().filter_map(said).collect()
    }
}

impl AddAssign for Done {
    fn add_assign(&mut self, more: Done) {
        self.captures += more.captures;
        self.packets += more.packets;
        self.ties += more.ties;
        self.waited += more.waited;
    }
}

/// When a packet arrived, went on the line, and was finished.
struct Packet {
    arrived: u64,
    sent: u64,
    finished: u64,
}

/// The packets of a capture that is done.
fn packets(output: &[u8]) -> Option<Vec<Packet>> {
    let text = std::str::from_utf8(output).ok()?;
    let mut lines = text.lines().skip(1);
    lines.next()?.strip_prefix("0,0,0,")?;
    lines.skip(1).map(packet).collect()
}

fn packet(line: &str) -> Option<Packet> {
    let numbers: Option<Vec<u64>> = line.split(',').map(|field| field.parse().ok()).collect();
    match numbers?[..] {
        [_, _, _, _, arrived, sent, finished] => Some(Packet {
            arrived,
            sent,
            finished,
        }),
        _ => None,
    }
}

#[cfg(test)]
mod tests {
    use super::*;
    use trials::captures::{Capture, CaptureCase};
    use trials::even_table;

    fn files(layout: Layout) -> Files {
        let case = CaptureCase {
            capture: Capture::new(layout, Vec::new()),
            rows: even_table(&[3]),
            classes: [2, 3, 4],
            rate: 1,
        };
        case.files()
    }

    const DONE: &str = "answer,place,second,count\r\n0,0,0,4\r\n\
                        packet,record,class,length,arrived,sent,finished\r\n";

    #[test]
    fn finishes_at_an_arrival_are_counted_in_their_layout() {
        let mut captured = Captured::default();
        // The second waits for the first, at whose finish the third arrives; the fourth arrives
        // as the line falls idle.
        let lines =
            "0,0,2,10,0,0,10\r\n1,1,2,5,3,10,15\r\n3,2,2,5,10,15,20\r\n6,3,2,5,20,20,25\r\n";
        captured.add(0, &files(LAYOUTS[2]), format!("{DONE}{lines}").as_bytes());
        captured += captured.clone();
        let done = Done {
            captures: 2,
            packets: 8,
            ties: 4,
            waited: 2,
        };
        assert_eq!(captured.done[2], done);
        assert_eq!((captured.sum(), captured.done[1]), (2, Done::default()));
        let text = captured.text();
        assert!(text.starts_with("captures answer 0: 2, answer 1: 0, answer 2: 0, answer 4: 0"));
        assert!(text.contains(
            "done, high byte first, microseconds: 2, packets: 8, \
             finishes at an arrival: 4, with a packet waiting: 2\n"
        ));
    }

    #[test]
    fn a_refusal_is_counted_by_its_answer_alone() {
        let mut captured = Captured::default();
        let refusal = b"answer,place,second,count\r\n37,0,0,0\r\n";
        captured.add(5, &files(LAYOUTS[0]), refusal);
        assert_eq!(captured.done, [Done::default(); LAYOUTS.len()]);
        assert_eq!(captured.sum(), 1);
    }

    #[test]
    fn what_comes_up_too_seldom_is_named() {
        let mut captured = Captured {
            done: [WANTED_IN_LAYOUT; LAYOUTS.len()],
            ..Captured::default()
        };
        let without = captured.shortages().len();
        captured.done[1].ties -= 1;
        captured.done[3].captures -= 1;
        assert_eq!(captured.shortages().len(), without + 2);
    }
}
