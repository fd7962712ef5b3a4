//! Live boxes over lent words, with a look at every word.

use std::ops::Range;

use second::live::{event, fresh, report, LiveAnswer};
use second::Answer;

use super::{Columns, Event, Outcome, Row};

pub const WORDS: usize = 6_912;

// Where the words of a state stand.
pub const ROW_COUNT: usize = 0;
pub const ACCEPTED: usize = 1;
pub const IDENTIFIER: usize = 256;
pub const PARENT: usize = 512;
pub const DEPTH: usize = 768;
pub const SHARE: usize = 1_024;
pub const START: usize = 1_280;
pub const FINISH_TAG: usize = 1_536;
pub const VIRTUAL: usize = 1_792;
pub const HEAD: usize = 2_048;
pub const HEAD_LENGTH: usize = 2_304;
pub const HEAD_CLASS: usize = 2_560;
pub const BYTES: usize = 2_816;
pub const HELD: usize = 3_072;
pub const BYTES_THEN: usize = 3_328;
pub const PARENT_BYTES_THEN: usize = 3_584;
pub const PACKET_CLASS: usize = 3_840;
pub const PACKET_LENGTH: usize = 4_864;
pub const PACKET_NAME: usize = 5_888;

/// Whether the word at this place is in use.
pub fn in_use(words: &[u64], place: usize) -> bool {
    let [rows, held] = [words[ROW_COUNT], words[HELD]].map(|count| count as usize);
    match place {
        0..IDENTIFIER => place <= ACCEPTED,
        IDENTIFIER..PACKET_CLASS => place % 256 < rows,
        _ => (place - PACKET_CLASS) % 1_024 < held,
    }
}

/// So many words, which differ from each other and from all that a test writes.
pub fn marked(words: usize) -> Vec<u64> {
    (0..words)
        .map(|i| 9_000_000_000_000_000_000 + i as u64)
        .collect()
}

/// A fresh state of these rows, which must be accepted; it is longer than it need be.
pub fn fresh_state(rows: &[Row]) -> Vec<u64> {
    let before = marked(WORDS + 3);
    let mut words = before.clone();
    let answer = fresh(Columns::new(rows, &[]).table(), &mut words);
    assert_eq!(answer, done(0, 0));
    let kept = |place: &usize| !in_use(&words, *place);
    for place in (0..WORDS).filter(kept).chain(WORDS..words.len()) {
        assert_eq!(words[place], before[place], "word {place}");
    }
    words
}

pub fn done(count: u32, packet: u32) -> LiveAnswer {
    LiveAnswer {
        answer: Answer {
            count,
            ..refused(0).answer
        },
        packet,
    }
}

pub fn refused(number: u32) -> LiveAnswer {
    LiveAnswer {
        answer: Answer {
            number,
            place: 0,
            second: 0,
            count: 0,
        },
        packet: 0,
    }
}

/// What the box answers: the packet that is put on the line, if one is, or the refusal. No word is
/// written that is not in use by then, and none by a refusal.
pub fn take(words: &mut [u64], (class, length): Event) -> Result<Option<u32>, u32> {
    let before = words.to_vec();
    let LiveAnswer { answer, packet } = event(words, class, length);
    assert_eq!((answer.place, answer.second), (0, 0));
    if answer.number != 0 {
        assert_eq!(
            (words, answer.count, packet),
            (&mut before.clone()[..], 0, 0)
        );
        return Err(answer.number);
    }
    for place in (0..words.len()).filter(|place| *place >= WORDS || !in_use(words, *place)) {
        assert_eq!(words[place], before[place], "word {place}");
    }
    assert!(answer.count == 1 || packet == 0);
    Ok((answer.count == 1).then_some(packet))
}

/// Takes events that must be accepted. Gives the packets that they put on the line.
pub fn take_all(words: &mut [u64], events: &[Event]) -> Vec<u32> {
    let taken = events.iter().map(|event| take(words, *event));
    taken
        .filter_map(|taken| taken.expect("it is accepted"))
        .collect()
}

/// The state that these events lead to from a fresh one.
pub fn state_after(rows: &[Row], events: &[Event]) -> Vec<u64> {
    let mut words = fresh_state(rows);
    take_all(&mut words, events);
    words
}

/// The report and the lags of a sound state of so many rows, and this order.
pub fn outcome(words: &[u64], rows: usize, order: &[u32]) -> Outcome {
    let mut lent = marked(5 * 256 + 3);
    let mut lags = vec![-7; 256 + 3];
    assert_eq!(report(words, &mut lent, &mut lags), done(0, 0));
    assert_eq!(lent[5 * rows..], marked(5 * 256 + 3)[5 * rows..]);
    assert!(lags[rows..].iter().all(|lag| *lag == -7));
    let numbers = lent[..5 * rows].chunks_exact(5);
    Outcome {
        order: order.to_vec(),
        report: numbers.map(|c| [c[0], c[1], c[2], c[3], c[4]]).collect(),
        lags: lags[..rows].to_vec(),
    }
}

/// The words of one list, from this one on.
pub fn list(words: &[u64], first: usize, count: usize) -> Vec<u64> {
    let places: Range<usize> = first..first + count;
    words[places].to_vec()
}
