//! The list that a capture makes, event by event together with the box, and refusals 11 to 13.

use crate::capture::records::Record;
use crate::capture::refusals::{EventFault, Refusal};
use crate::capture::Capture;
use crate::events::{decode, Event};
use crate::report;
use crate::scheduler::Scheduler;
use crate::slices::{EventRoom, Lent};
use crate::table::Table;

/// A record's packet as it arrives for its class.
#[derive(Clone, Copy)]
pub struct Arrival {
    pub record: usize,
    pub class: u32,
    pub length: u32,
    pub stamp: u64,
}

/// A packet that went on the line; moments are in microseconds, as stamps are.
pub struct Trip {
    /// The place of its arrival in the list.
    pub packet: u32,
    pub arrival: Arrival,
    pub sent: u64,
    pub finished: u64,
}

/// The box with a clock.
pub struct Line<'a> {
    capture: &'a Capture<'a>,
    scheduler: Scheduler<'a>,
    /// The events so far, with nothing for a finish.
    list: Vec<Option<Arrival>>,
    /// In sending order; while the line is busy the last one is on it.
    pub trips: Vec<Trip>,
}

impl<'a> Line<'a> {
    pub fn new(table: &'a Table, capture: &'a Capture<'a>) -> Line<'a> {
        Line {
            capture,
            scheduler: Scheduler::new(table),
            list: Vec::new(),
            trips: Vec::new(),
        }
    }

    /// Takes the records one after another, then runs the line until it is idle.
    pub fn carry(&mut self, records: &[Record]) -> Result<(), Refusal> {
        for record in records {
            self.finish_until(record.stamp);
            self.arrive(record)?;
        }
        // No packet is finished as late as this.
        self.finish_until(u64::MAX);
        Ok(())
    }

    /// Lets the line finish what it has finished at this moment, whatever else happens then.
    fn finish_until(&mut self, moment: u64) {
        while let Some(due) = self.due().filter(|due| *due <= moment) {
            self.take(Event::Finish, None, due);
        }
    }

    /// When the packet on the line is finished; nothing while the line is idle.
    fn due(&self) -> Option<u64> {
        self.scheduler.tree.on_line()?;
        self.trips.last().map(|trip| trip.finished)
    }

    fn arrive(&mut self, record: &Record) -> Result<(), Refusal> {
        let class = self.capture.class_of(record.code_point());
        let event = self.arrival_of(record, class)?;
        let arrival = Arrival {
            record: record.place.record,
            class,
            length: record.length,
            stamp: record.stamp,
        };
        self.take(event, Some(arrival), record.stamp);
        Ok(())
    }

    /// The arrival of the record's packet for this class.
    fn arrival_of(&self, record: &Record, class: u32) -> Result<Event, Refusal> {
        let number = match decode(self.scheduler.table, class, record.length) {
            Ok(event @ Event::Arrival { .. }) => return Ok(event),
            // Class 0 with length 0: in a list a finish, which no record is.
            Ok(Event::Finish) => 13,
            Err(number) => number,
        };
        Err(Refusal::Event(EventFault {
            number,
            event: self.list.len(),
            place: record.place,
            class,
            length: record.length,
            code_point: record.code_point(),
        }))
    }

    /// Takes an event at this moment, and notes the packet that it puts on the line, if it does.
    fn take(&mut self, event: Event, arrival: Option<Arrival>, moment: u64) {
        self.list.push(arrival);
        let Some(packet) = self.scheduler.take(event) else {
            return;
        };
        if let Some(arrival) = self.list[packet as usize] {
            self.trips.push(Trip {
                packet,
                arrival,
                sent: moment,
                finished: moment + sending_time(arrival.length, self.capture.rate),
            });
        }
    }

    /// Writes the list and the results; the slices have been found long enough before.
    pub fn write(&self, list: EventRoom, mut lent: Lent) {
        let words = list.classes.iter_mut().zip(list.lengths);
        for ((class, length), event) in words.zip(&self.list) {
            (*class, *length) = match event {
                Some(arrival) => (arrival.class, arrival.length),
                None => (0, 0),
            };
        }
        let order = self.trips.iter().map(|trip| trip.packet);
        report::write(&self.scheduler, order, &mut lent);
    }
}

/// Microseconds that the line takes for a packet of this length, rounded up.
fn sending_time(length: u32, rate: u32) -> u64 {
    (u64::from(length) * 1_000_000).div_ceil(u64::from(rate))
}
