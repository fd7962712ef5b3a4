//! Random captures that are done: lines that are mostly idle or mostly busy, and ones whose
//! finishes fall on arrivals or beside them.

use crate::captures::{
    class_of, time, Capture, CaptureCase, Layout, Record, IN_SECOND, PACKET_HEADER,
};
use crate::{sending, unknown_identifier, Random, Row, EDGES};
use second::MOST_BYTES;

/// How the stamps follow each other.
#[derive(Clone, Copy, Debug, PartialEq, Eq)]
pub enum Pace {
    /// Mostly long after the last packet is finished.
    Idle,
    /// Before the packet on the line is finished.
    Busy,
    /// Many at once, then none for a while.
    Bursts,
    /// As many packets' times after each other, all of one length.
    Ties,
    /// The same with several lengths.
    Multiples,
    /// A microsecond before, at or after such a moment.
    Near,
}

pub const PACES: [Pace; 6] = [
    Pace::Idle,
    Pace::Busy,
    Pace::Bursts,
    Pace::Ties,
    Pace::Multiples,
    Pace::Near,
];

/// Rates under which few packets, or all, take a whole number of microseconds, and the edges.
const RATES: [u32; 9] = [
    1,
    7,
    125_000,
    1_000_000,
    1_250_000,
    12_500_000,
    125_000_000,
    1_000_000_000,
    u32::MAX,
];

/// The first and the last code points of each class.
const CODE_POINTS: [&[u8]; 3] = [&[46, 48, 63], &[8, 39], &[0, 7, 40, 45, 47]];

/// Bytes that are included of a long packet at most.
const MOST_INCLUDED: usize = 120;

/// The stamp that no second goes beyond.
const LAST: u64 = u32::MAX as u64 * IN_SECOND + IN_SECOND - 1;

/// A capture of so many records over the table, which must be accepted. Where a class that is named
/// gets no packet it may be any number.
pub fn random_capture(
    rows: Vec<Row>,
    layout: Layout,
    pace: Pace,
    records: usize,
    random: &mut Random,
) -> CaptureCase {
    let growing = Growing {
        layout,
        pace,
        lengths: random_lengths(pace, random),
        rate: random_rate(pace, random),
        used: random_used(random),
    };
    let mut capture = Capture::new(layout, growing.records(records, random));
    if random.one_in(2) {
        capture.unread = [(); 3].map(|()| random.word());
    }
    let classes = random_classes(&rows, &growing.used, random);
    CaptureCase {
        capture,
        rows,
        classes,
        rate: growing.rate,
    }
}

/// Lengths that come up.
fn random_lengths(pace: Pace, random: &mut Random) -> Vec<u32> {
    let any = || random.between(1, MOST_BYTES as usize) as u32;
    let any: Vec<u32> = std::iter::repeat_with(any).take(5).collect();
    match (pace, random.below(4)) {
        (Pace::Ties, _) => vec![random.pick(&[1, 64, 100, 1500, MOST_BYTES, any[0]])],
        (Pace::Multiples, _) => vec![100, 100, 200, 300],
        (_, 0) => EDGES.to_vec(),
        (_, 1) => vec![40, 100, 576, 1500],
        (_, 2) => vec![1, 2, 3],
        _ => any,
    }
}

fn random_rate(pace: Pace, random: &mut Random) -> u32 {
    match random.below(3) {
        // Then packets' times are multiples as their lengths are.
        _ if pace == Pace::Multiples => random.pick(&[125_000, 250_000, 500_000, 1_000_000]),
        0 => (random.word() >> random.below(32)).max(1),
        _ => random.pick(&RATES),
    }
}

/// Which of the three classes get packets.
fn random_used(random: &mut Random) -> Vec<usize> {
    let mut used = vec![0, 1, 2];
    random.shuffle(&mut used);
    used.truncate(random.pick(&[1, 2, 3, 3, 3, 3]));
    used
}

fn random_classes(rows: &[Row], used: &[usize], random: &mut Random) -> [u32; 3] {
    let sending = sending(rows);
    [0, 1, 2].map(|class| match used.contains(&class) || random.one_in(2) {
        true => random.pick(&sending),
        false => {
            let unknown = unknown_identifier(rows, random);
            random.pick(&[0, rows[0].identifier, unknown])
        }
    })
}

struct Growing {
    layout: Layout,
    pace: Pace,
    lengths: Vec<u32>,
    rate: u32,
    used: Vec<usize>,
}

impl Growing {
    fn records(&self, count: usize, random: &mut Random) -> Vec<Record> {
        let mut after = 0;
        let mut stamps = Vec::new();
        for _ in 0..count {
            stamps.push(after);
            after += self.gap(random);
        }
        let last = stamps.last().copied().unwrap_or(0);
        let today = 1_700_000_000 * IN_SECOND + random.below(IN_SECOND as usize) as u64;
        let first = random.pick(&[0, 1, today, LAST]).min(LAST - last);
        let records = stamps.into_iter().map(|stamp| first + stamp);
        records.map(|stamp| self.record(stamp, random)).collect()
    }

    /// Microseconds from one record to the next.
    fn gap(&self, random: &mut Random) -> u64 {
        let unit = time(random.pick(&self.lengths), self.rate);
        let times = |most: usize, random: &mut Random| random.below(most + 1) as u64 * unit;
        match self.pace {
            Pace::Idle => times(20, random) + random.below(3) as u64,
            Pace::Busy => random.below(unit as usize / 2 + 1) as u64,
            Pace::Bursts if random.one_in(6) => times(12, random) + random.below(2) as u64,
            Pace::Bursts => 0,
            Pace::Ties | Pace::Multiples => times(2, random),
            Pace::Near => (times(2, random) + random.below(3) as u64).saturating_sub(1),
        }
    }

    /// Any packet at this stamp, at times with seconds in its fraction, and at the first, the last or
    /// any other nanosecond.
    fn record(&self, stamp: u64, random: &mut Random) -> Record {
        let original = random.pick(&self.lengths);
        let code_point = self.code_point(random);
        let mut record = self.layout.record(stamp, original, code_point);
        let unit = self.layout.in_microsecond();
        let any = random.below(unit as usize) as u32;
        record.fraction += random.pick(&[0, 1, unit - 1, any]).min(unit - 1);
        if random.one_in(6) {
            let second = IN_SECOND as u32 * unit;
            let most = ((u32::MAX - record.fraction) / second).min(record.seconds);
            let carried = random.below(most as usize + 1) as u32;
            record.seconds -= carried;
            record.fraction += carried * second;
        }
        record.packet = packet(code_point, original, random);
        record.included = record.packet.len() as u32;
        record
    }

    fn code_point(&self, random: &mut Random) -> u8 {
        let class = random.pick(&self.used);
        loop {
            let code_point = match random.one_in(2) {
                true => random.pick(CODE_POINTS[class]),
                false => random.below(64) as u8,
            };
            if class_of(code_point) == class {
                return code_point;
            }
        }
    }
}

/// An IPv4 header of any length with the code point, and any bytes after it; mostly not as many as
/// the packet had.
fn packet(code_point: u8, original: u32, random: &mut Random) -> Vec<u8> {
    let whole = (original as usize).clamp(PACKET_HEADER, MOST_INCLUDED);
    let any = random.between(PACKET_HEADER, MOST_INCLUDED);
    let included = random.pick(&[PACKET_HEADER, PACKET_HEADER, whole, any]);
    let words = random.pick(&[5, 5, 5, 6, 15]);
    let mut packet: Vec<u8> = (0..included).map(|_| random.below(256) as u8).collect();
    packet[0] = 4 << 4 | words;
    packet[1] = code_point << 2 | random.below(4) as u8;
    packet
}

#[cfg(test)]
mod tests {
    use std::collections::BTreeSet;

    use super::*;
    use crate::captures::model::{replayed, Replayed};
    use crate::captures::LAYOUTS;
    use crate::{random_table, Shape};

    const SHAPES: [Shape; 5] = [
        Shape::Flat,
        Shape::Deep,
        Shape::Even,
        Shape::Levels,
        Shape::Two,
    ];

    fn captures(pace: Pace) -> impl Iterator<Item = CaptureCase> {
        (0..60).map(move |number| {
            let mut random = Random::new(7, number);
            let rows = random_table(random.pick(&SHAPES), 840, &mut random);
            let records = random.below(40);
            let layout = LAYOUTS[number as usize % LAYOUTS.len()];
            random_capture(rows, layout, pace, records, &mut random)
        })
    }

    fn done(pace: Pace) -> Vec<Replayed> {
        let done = |case: CaptureCase| replayed(&case).expect("the capture is done");
        captures(pace).map(done).collect()
    }

    #[test]
    fn every_capture_is_done_with_a_finish_for_each_record() {
        for pace in PACES {
            for (case, replayed) in captures(pace).zip(done(pace)) {
                let events = replayed.events.len();
                assert_eq!(events, 2 * case.capture.records.len(), "{pace:?}");
            }
        }
    }

    #[test]
    fn lines_are_idle_or_busy_and_ties_come_up() {
        let sum = |pace, of: fn(&Replayed) -> usize| done(pace).iter().map(of).sum::<usize>();
        let [idle, busy] = [Pace::Idle, Pace::Busy].map(|pace| sum(pace, |r| r.idle));
        assert!(idle > 10 * busy, "{idle} {busy}");
        let ties = [Pace::Ties, Pace::Multiples, Pace::Near].map(|pace| sum(pace, |r| r.ties));
        assert!(ties.into_iter().all(|ties| ties > 100), "{ties:?}");
    }

    #[test]
    fn stamps_are_of_all_kinds() {
        let (mut carried, mut back, mut last) = (0, 0, 0);
        for case in PACES.into_iter().flat_map(captures) {
            let layout = case.capture.layout;
            let second = IN_SECOND as u32 * layout.in_microsecond();
            let records = &case.capture.records;
            carried += records.iter().filter(|r| r.fraction >= second).count();
            last += records.iter().filter(|r| r.stamp(layout) == LAST).count();
            let nanoseconds = |record: &Record| {
                u64::from(record.seconds) * 1_000_000_000 + u64::from(record.fraction)
            };
            let pairs = records.windows(2).filter(|_| layout.nano);
            let goes_back = |pair: &&[Record]| nanoseconds(&pair[1]) < nanoseconds(&pair[0]);
            back += pairs.filter(goes_back).count();
        }
        assert!(
            carried > 200 && back > 100 && last > 20,
            "{carried} {back} {last}"
        );
    }

    #[test]
    fn packets_are_of_all_kinds() {
        let (mut code_points, mut words) = (BTreeSet::new(), BTreeSet::new());
        let mut unlike = [0; 3];
        for case in PACES.into_iter().flat_map(captures) {
            for record in &case.capture.records {
                code_points.insert(record.packet[1] >> 2);
                words.insert(record.packet[0] & 15);
                unlike[(record.included.cmp(&record.original) as i8 + 1) as usize] += 1;
            }
        }
        assert_eq!((code_points.len(), words.len()), (64, 3));
        assert!(unlike.into_iter().all(|count| count > 50), "{unlike:?}");
    }

    #[test]
    fn classes_without_packets_are_wrong_at_times() {
        let wrong = |case: &CaptureCase| {
            let sending = sending(&case.rows);
            !case.classes.iter().all(|class| sending.contains(class))
        };
        let count = PACES.into_iter().flat_map(captures).filter(wrong).count();
        assert!(count > 20);
    }
}
