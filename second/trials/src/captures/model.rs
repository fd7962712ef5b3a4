//! What a small capture must be answered with, from the run over a list that grows event by event:
//! for the tests of those that are made.

use crate::captures::{
    class_of, time, CaptureCase, Layout, IN_SECOND, MOST_RECORDS, RAW_IP, VERSION,
};
use crate::{Case, Event, FINISH};
use second::{Answer, Room};

/// A capture that is done.
#[derive(Default)]
pub struct Replayed {
    pub events: Vec<Event>,
    /// Packets that found the line idle.
    pub idle: usize,
    /// Finishes that fell on the next arrival.
    pub ties: usize,
}

struct Packet {
    stamp: u64,
    event: Event,
}

/// The list, or the number and the place of the refusal.
pub fn replayed(case: &CaptureCase) -> Result<Replayed, [u32; 2]> {
    let packets = packets(case)?;
    let table = Case {
        rows: case.rows.clone(),
        events: Vec::new(),
    };
    let refusal = |answer: Answer| [answer.number, answer.place];
    match table.answer() {
        answer if answer.number == 1 => return Err(refusal(answer)),
        _ if packets.len() > MOST_RECORDS => return Err([2, 0]),
        answer if answer.number > 0 => return Err(refusal(answer)),
        _ => {}
    }
    list(table, &packets, case.rate).map_err(refusal)
}

/// Refusals 30 to 38.
fn packets(case: &CaptureCase) -> Result<Vec<Packet>, [u32; 2]> {
    let bytes = case.capture.bytes();
    if case.rate == 0 {
        return Err([30, 0]);
    }
    let (header, rest) = bytes.split_at_checked(24).ok_or([31, 0])?;
    let layout = Layout::of(&bytes).ok_or([32, 0])?;
    if header[4..8] != VERSION.map(|half| layout.half(half)).concat() {
        return Err([33, 0]);
    }
    if header[20..] != layout.word(RAW_IP) {
        return Err([34, 0]);
    }
    records(rest, layout, &case.classes)
}

/// Refusals 35 to 38.
fn records(mut rest: &[u8], layout: Layout, classes: &[u32; 3]) -> Result<Vec<Packet>, [u32; 2]> {
    let mut packets: Vec<Packet> = Vec::new();
    while !rest.is_empty() {
        let refused = |number| [number, packets.len() as u32];
        let (header, after) = rest.split_at_checked(16).ok_or(refused(35))?;
        let words = [0, 4, 8, 12].map(|at| layout.read_word(&header[at..]).expect("it is there"));
        let (packet, after) = after
            .split_at_checked(words[2] as usize)
            .ok_or(refused(36))?;
        if packet.len() < 20 || !(0x45..=0x4f).contains(&packet[0]) {
            return Err(refused(37));
        }
        let fraction = u64::from(words[1] / layout.in_microsecond());
        let stamp = u64::from(words[0]) * IN_SECOND + fraction;
        if packets.last().is_some_and(|last| last.stamp > stamp) {
            return Err(refused(38));
        }
        let class = classes[class_of(packet[1] >> 2)];
        let length = words[3];
        packets.push(Packet {
            stamp,
            event: Event { class, length },
        });
        rest = after;
    }
    Ok(packets)
}

fn list(mut case: Case, packets: &[Packet], rate: u32) -> Result<Replayed, Answer> {
    let mut done = Replayed::default();
    let mut waiting = packets.iter().peekable();
    // When the packet on the line is finished, and how many have been put there.
    let mut finish = None;
    let mut count = 0;
    loop {
        let next = waiting.peek().map(|packet| packet.stamp);
        let finished = finish.filter(|moment| next.is_none_or(|stamp| *moment <= stamp));
        let now = match finished {
            Some(moment) => {
                done.ties += usize::from(next == Some(moment));
                case.events.push(FINISH);
                moment
            }
            None => {
                let Some(packet) = waiting.next() else {
                    done.events = case.events;
                    return Ok(done);
                };
                done.idle += usize::from(finish.is_none());
                case.events.push(named(packet.event));
                packet.stamp
            }
        };
        let mut room = Room::new(case.rows.len(), case.events.len());
        let answer = case.run(&mut room);
        if answer.number > 0 {
            return Err(answer);
        }
        if answer.count > count {
            let packet = room.order[count as usize] as usize;
            finish = Some(now + time(case.events[packet].length, rate));
            count = answer.count;
        } else if finished.is_some() {
            finish = None;
        }
    }
}

/// The arrival, with a length that makes it no finish where its class is 0.
fn named(event: Event) -> Event {
    match event.class {
        0 => Event { length: 1, ..event },
        _ => event,
    }
}
