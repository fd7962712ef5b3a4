//! Damages a capture that is done, or what it is replayed with, so that it is refused with a given
//! number.

use crate::captures::{
    class_of, CaptureCase, Record, FILE_HEADER, IN_SECOND, LAYOUTS, MOST_RECORDS, PACKET_HEADER,
    RAW_IP, RECORD_HEADER, VERSION,
};
use crate::{damage, same_on_air, sending, unknown_identifier, Case, Random};
use second::{MOST_BYTES, MOST_EVENTS};

/// All refusals but 3, which only a caller with short slices meets, in the order of looking.
const CAPTURE_NUMBERS: [u32; 22] = [
    30, 31, 32, 33, 34, 35, 36, 37, 38, 1, 2, 4, 15, 5, 6, 7, 8, 9, 10, 11, 12, 13,
];

/// Magic numbers of other layouts: the next generation's, old and modified ones, and none.
const OTHER_MAGICS: [u32; 6] = [
    0x0a0d_0d0a,
    0xa1b2_cd34,
    0xa1b2_c3d5,
    0xa1b2_3c4e,
    0xb2a1_d4c3,
    0,
];

const OTHER_VERSIONS: [[u16; 2]; 8] = [
    [2, 3],
    [2, 5],
    [1, 4],
    [3, 4],
    [4, 2],
    [0x0200, 0x0400],
    [0x0102, 4],
    [2, 0x0104],
];

const OTHER_LINKS: [u32; 8] = [0, 1, 12, 100, 102, 228, 229, RAW_IP << 24];

/// Damages the case; `place` may be any number and says where, as far as there is a choice.
pub fn damage_capture(case: &mut CaptureCase, number: u32, place: usize, random: &mut Random) {
    if case.capture.records.is_empty() {
        one_record(case);
    }
    match number {
        30 => case.rate = 0,
        31 => case.capture.most = random.below(FILE_HEADER),
        32 => other_magic(case, random),
        33 => other_version(case, random),
        34 => other_link(case, random),
        35 => cut_header(case, place, random),
        36 => cut_packet(case, place, random),
        37 => not_ipv4(record(case, place), random),
        38 => stamp_back(case, place, random),
        2 => many_records(case, random),
        11 => name_class(case, place, |case| unknown_identifier(&case.rows, random)),
        12 => name_class(case, place, |case| not_sending(case, random)),
        13 => no_packet(case, place, random),
        _ => table(case, number, place, random),
    }
}

/// Each two of these refusals, in the order of looking.
pub fn number_pairs() -> Vec<[u32; 2]> {
    let numbers = CAPTURE_NUMBERS.iter().enumerate();
    let pairs = numbers.flat_map(|(place, first)| {
        let after = CAPTURE_NUMBERS[place + 1..].iter();
        after.map(|second| [*first, *second])
    });
    pairs.collect()
}

/// Two damages, one of `number_pairs`, half of the time at the same place.
pub fn damage_capture_twice(case: &mut CaptureCase, numbers: [u32; 2], random: &mut Random) {
    let [first, second] = numbers;
    let place = random.below(MOST_EVENTS);
    let other = match random.one_in(2) {
        true => place,
        false => random.below(MOST_EVENTS),
    };
    // What takes rows or bytes away comes after what needs them.
    damage_capture(case, second, place, random);
    damage_capture(case, first, other, random);
}

/// Puts a packet into a capture without one, for a class that sends.
fn one_record(case: &mut CaptureCase) {
    let record = case.capture.layout.record(IN_SECOND, 100, 0);
    case.capture.records.push(record);
    case.classes[class_of(0)] = sending(&case.rows)[0];
}

fn record(case: &mut CaptureCase, place: usize) -> &mut Record {
    let count = case.capture.records.len();
    &mut case.capture.records[place % count]
}

fn other_magic(case: &mut CaptureCase, random: &mut Random) {
    let magics = LAYOUTS.map(|layout| layout.magic());
    let known = |magic: u32| magics.contains(&magic) || magics.contains(&magic.swap_bytes());
    case.capture.magic = match random.below(4) {
        0 => random.word(),
        1 => case.capture.magic ^ (1 << random.below(32)),
        _ => random.pick(&OTHER_MAGICS),
    };
    if known(case.capture.magic) {
        case.capture.magic = 0;
    }
}

fn other_version(case: &mut CaptureCase, random: &mut Random) {
    let any = [random.word() as u16, random.word() as u16];
    case.capture.version = match random.one_in(4) && any != VERSION {
        true => any,
        false => random.pick(&OTHER_VERSIONS),
    };
}

/// At times one that has 101 in its low bits.
fn other_link(case: &mut CaptureCase, random: &mut Random) {
    case.capture.link = match random.one_in(3) {
        true => RAW_IP | 1 << random.between(7, 31),
        false => random.pick(&OTHER_LINKS),
    };
}

/// Cuts the capture off in the header of some record.
fn cut_header(case: &mut CaptureCase, place: usize, random: &mut Random) {
    let capture = &mut case.capture;
    let record = place % capture.records.len();
    let any = random.between(1, RECORD_HEADER - 1);
    capture.most = capture.offset(record) + random.pick(&[1, RECORD_HEADER - 1, any]);
}

/// Cuts the capture off in some packet, or says that more of it are included than are left.
fn cut_packet(case: &mut CaptureCase, place: usize, random: &mut Random) {
    let capture = &mut case.capture;
    let record = place % capture.records.len();
    let begins = capture.offset(record) + RECORD_HEADER;
    let left = capture.bytes().len().saturating_sub(begins);
    let there = capture.records[record].packet.len();
    match random.below(3) {
        0 if there > 0 => capture.most = begins + random.below(there),
        1 => {
            let far = [1 << 31, u32::MAX, u32::MAX - 15, 1 << 24];
            capture.records[record].included = random.pick(&far);
        }
        _ => capture.records[record].included = left as u32 + 1,
    }
}

fn not_ipv4(record: &mut Record, random: &mut Random) {
    let first = match record.packet.first() {
        Some(first) if random.below(3) > 0 => *first,
        _ => {
            let any = random.below(PACKET_HEADER);
            record
                .packet
                .truncate(random.pick(&[0, 1, PACKET_HEADER - 1, any]));
            record.included = record.packet.len() as u32;
            return;
        }
    };
    record.packet[0] = match random.one_in(2) {
        // Version 6 more often than others.
        true => random.pick(&[6, 6, 0, 3, 5, 12, 15]) << 4 | first & 15,
        // One word too few more often than others.
        false => first & !15 | random.pick(&[4, 4, 4, 0, 1, 3]),
    };
}

/// Puts some record before the one above it, by a microsecond at least.
fn stamp_back(case: &mut CaptureCase, place: usize, random: &mut Random) {
    let capture = &mut case.capture;
    if capture.records.len() == 1 {
        capture.records.push(capture.records[0].clone());
    }
    let record = 1 + place % (capture.records.len() - 1);
    let layout = capture.layout;
    if capture.records[record - 1].stamp(layout) == 0 {
        capture.records[record - 1].seconds = 1;
    }
    let above = capture.records[record - 1].stamp(layout);
    let by = random
        .pick(&[1, 1, IN_SECOND, above / 2, above])
        .clamp(1, above);
    let stamp = above - by;
    let moved = &mut capture.records[record];
    moved.seconds = (stamp / IN_SECOND) as u32;
    // The last nanosecond of its microsecond is nearest to the one above.
    moved.fraction = ((stamp % IN_SECOND) as u32 + 1) * layout.in_microsecond() - 1;
}

fn many_records(case: &mut CaptureCase, random: &mut Random) {
    let records = &mut case.capture.records;
    let count = MOST_RECORDS + 1 + random.below(2) * random.below(1000);
    let mut last = records[records.len() - 1].clone();
    last.packet.truncate(PACKET_HEADER);
    last.included = last.packet.len() as u32;
    records.resize(records.len().max(count), last);
}

/// Gives the class that some record is for another identifier.
fn name_class(case: &mut CaptureCase, place: usize, name: impl FnOnce(&CaptureCase) -> u32) {
    let class = record(case, place).class();
    case.classes[class] = name(case);
}

fn not_sending(case: &CaptureCase, random: &mut Random) -> u32 {
    let sending = sending(&case.rows);
    let names = case.rows.iter().map(|row| row.identifier);
    let others: Vec<u32> = names.filter(|name| !sending.contains(name)).collect();
    match random.one_in(3) {
        true => case.rows[0].identifier,
        false => random.pick(&others),
    }
}

/// A class that is none, or a length that no packet has.
fn no_packet(case: &mut CaptureCase, place: usize, random: &mut Random) {
    if random.one_in(3) {
        return no_class(case, place, random.one_in(2));
    }
    let original = &mut record(case, place).original;
    let far = random.word() | 1 << 14;
    *original = match random.below(5) {
        0 => 0,
        1 | 2 => MOST_BYTES + 1,
        // In 16 bits it would still be accepted.
        3 => same_on_air(*original, random),
        _ => random.pick(&[u32::MAX, far]),
    };
}

/// Names class 0 for some record, whose packets may have length 0 too, as a finish has.
fn no_class(case: &mut CaptureCase, place: usize, without_length: bool) {
    name_class(case, place, |_| 0);
    let classes = case.classes;
    let records = case.capture.records.iter_mut();
    let of_class = records.filter(|record| without_length && classes[record.class()] == 0);
    of_class.for_each(|record| record.original = 0);
}

fn table(case: &mut CaptureCase, number: u32, place: usize, random: &mut Random) {
    let mut table = Case {
        rows: std::mem::take(&mut case.rows),
        events: Vec::new(),
    };
    damage(&mut table, number, place, random);
    case.rows = table.rows;
}

#[cfg(test)]
mod tests {
    use std::collections::BTreeSet;

    use super::*;
    use crate::captures::model::replayed;
    use crate::captures::{random_capture, PACES};
    use crate::{random_table, Shape};

    fn done(number: u64) -> (CaptureCase, Random) {
        let mut random = Random::new(8, number);
        let shape = random.pick(&[Shape::Flat, Shape::Deep, Shape::Any, Shape::Two]);
        let rows = random_table(shape, 840, &mut random);
        let layout = random.pick(&LAYOUTS);
        let pace = random.pick(&PACES);
        let records = random.below(25);
        let case = random_capture(rows, layout, pace, records, &mut random);
        (case, random)
    }

    /// The numbers and places of the refusals of so many captures with this damage.
    fn refusals(count: u64, work: impl Fn(&mut CaptureCase, &mut Random)) -> Vec<[u32; 2]> {
        let refusal = |number| {
            let (mut case, mut random) = done(number);
            work(&mut case, &mut random);
            replayed(&case).err().expect("the capture is refused")
        };
        (0..count).map(refusal).collect()
    }

    #[test]
    fn each_damage_gives_the_refusal_it_aims_at() {
        for number in CAPTURE_NUMBERS {
            let count = if number == 2 { 4 } else { 100 };
            let found = refusals(count, |case, random| {
                damage_capture(case, number, random.below(1000), random);
            });
            assert!(
                found.iter().all(|found| found[0] == number),
                "{number} {found:?}"
            );
            let places: BTreeSet<u32> = found.iter().map(|found| found[1]).collect();
            let many = [35, 36, 37, 38, 11, 12, 13].contains(&number);
            assert!(!many || places.len() > 8, "{number} at {places:?}");
        }
    }

    /// What is looked at together: each row of a table, each record and each event in turn.
    fn stage(number: u32) -> usize {
        let stages: [&[u32]; 10] = [
            &[30],
            &[31],
            &[32],
            &[33],
            &[34],
            &[35, 36, 37, 38],
            &[1],
            &[2],
            &[4, 15, 5, 6, 7, 8, 9, 10],
            &[11, 12, 13],
        ];
        let has = |stage: &&[u32]| stage.contains(&number);
        stages.iter().position(has).expect("it is there")
    }

    #[test]
    fn of_two_damages_the_one_that_is_looked_at_first_is_the_refusal() {
        assert_eq!(number_pairs().len(), 231);
        for [first, second] in number_pairs() {
            let count = if second == 2 { 2 } else { 10 };
            let found = refusals(count, |case, random| {
                damage_capture_twice(case, [first, second], random);
            });
            let mut numbers = found.iter().map(|found| found[0]);
            let right = match stage(first) < stage(second) {
                true => numbers.all(|number| number == first),
                false => numbers.all(|number| [first, second].contains(&number)),
            };
            assert!(right, "{first} {second} {found:?}");
        }
    }
}
