//! The state of every row and the steps that change it: arrival, choosing, line finished.

use std::collections::VecDeque;

use crate::events::MOST_BYTES;
use crate::inside::Choices;
use crate::live::MOST_ACCEPTED;
use crate::shares;
use crate::table::Table;

#[derive(Clone, Copy)]
pub struct Packet {
    /// The place of its event.
    pub place: u32,
    /// The row of its sending class.
    pub row: usize,
    pub length: u32,
}

/// No tag is over this. A start is never over the largest tag before its event, so a packet
/// raises that by at most the charge for the longest one under share 1. Such a charge may
/// be over 32 bits; that the product is within 64 is seen when this is built.
const _: u64 = (MOST_ACCEPTED as u64 + 1) * MOST_BYTES as u64 * shares::UNIT_COST as u64;

/// Tags are in ticks.
#[derive(Clone, Default)]
pub struct RowState {
    pub start: u64,
    pub finish: u64,
    pub virtual_time: u64,
    /// The packet itself at every level, so that each row above can tell when it arrived.
    pub head: Option<Packet>,
    /// A sending class's packets, first its head; empty at other rows.
    pub queue: VecDeque<Packet>,
}

/// Why a row chooses.
#[derive(Clone, Copy, PartialEq)]
enum Reason {
    /// Its own packet has just been finished by the line.
    PacketFinished,
    /// It had no head, and a packet has arrived below it.
    PacketArrived,
}

pub struct Tree<'a> {
    table: &'a Table,
    pub rows: Vec<RowState>,
    /// Where the choices are counted, if they are.
    choices: Option<&'a mut Choices>,
}

impl<'a> Tree<'a> {
    pub fn new(table: &'a Table) -> Tree<'a> {
        Tree::of(table, vec![RowState::default(); table.rows.len()])
    }

    /// A tree whose rows stand like this.
    pub fn of(table: &'a Table, rows: Vec<RowState>) -> Tree<'a> {
        Tree {
            table,
            rows,
            choices: None,
        }
    }

    /// A tree whose choices are counted.
    pub fn counting(table: &'a Table, choices: &'a mut Choices) -> Tree<'a> {
        Tree {
            choices: Some(choices),
            ..Tree::new(table)
        }
    }

    /// The packet on the line, which is the root's head.
    pub fn on_line(&self) -> Option<Packet> {
        self.rows[0].head
    }

    pub fn arrive(&mut self, packet: Packet) {
        let row = packet.row;
        self.rows[row].queue.push_back(packet);
        if self.rows[row].head.is_some() {
            return;
        }
        let start = self.start_after_empty(row);
        self.set_head(row, packet, start);
        self.choose_above(row, Reason::PacketArrived);
    }

    /// Takes the packet off the line and gives it back; nothing if the line is idle.
    pub fn line_finished(&mut self) -> Option<Packet> {
        let packet = self.on_line()?;
        for row in self.table.path(packet.row) {
            self.rows[row].head = None;
        }
        let row = packet.row;
        self.rows[row].queue.pop_front();
        // The class renews its head before its parent chooses.
        if let Some(next) = self.rows[row].queue.front().copied() {
            let start = self.rows[row].finish;
            self.set_head(row, next, start);
        }
        self.choose_above(row, Reason::PacketFinished);
        Some(packet)
    }

    /// Lets the rows above this one choose, upwards, as long as they have no head.
    fn choose_above(&mut self, row: usize, reason: Reason) {
        let mut below = row;
        while let Some(parent) = self.table.rows[below].parent {
            if self.rows[parent].head.is_some() {
                return;
            }
            self.choose(parent, reason);
            below = parent;
        }
    }

    fn choose(&mut self, row: usize, reason: Reason) {
        let Some(packet) = self.take_from_children(row) else {
            return;
        };
        self.rows[row].virtual_time += u64::from(shares::WHOLE) * u64::from(packet.length);
        if self.table.rows[row].parent.is_none() {
            self.rows[row].head = Some(packet);
            return;
        }
        let start = match reason {
            Reason::PacketFinished => self.rows[row].finish,
            Reason::PacketArrived => self.start_after_empty(row),
        };
        self.set_head(row, packet, start);
    }

    /// Raises the row's virtual time as far as needed and takes the head of a child: of the
    /// eligible ones that of the least finish, of equal finishes the head that arrived first.
    fn take_from_children(&mut self, row: usize) -> Option<Packet> {
        let children = self.table.rows[row].children.iter().map(|c| &self.rows[*c]);
        let waiting = children.filter_map(|child| Some((child, child.head?)));
        let least_start = waiting.clone().map(|(child, _)| child.start).min()?;
        let virtual_time = self.rows[row].virtual_time.max(least_start);
        let eligible = waiting.filter(|(child, _)| child.start <= virtual_time);
        let (taken, packet) = eligible
            .clone()
            .min_by_key(|(child, head)| (child.finish, head.place))?;
        if let Some(choices) = &mut self.choices {
            let equal = eligible.filter(|(child, _)| child.finish == taken.finish);
            choices.count(equal.map(|(_, head)| head.place), packet.place);
        }
        self.rows[row].virtual_time = virtual_time;
        Some(packet)
    }

    /// The start of a row that had nothing to send: no earlier than its parent's time.
    fn start_after_empty(&self, row: usize) -> u64 {
        let own = self.rows[row].finish;
        match self.table.rows[row].parent {
            Some(parent) => own.max(self.rows[parent].virtual_time),
            None => own,
        }
    }

    fn set_head(&mut self, row: usize, packet: Packet, start: u64) {
        let charge = shares::charge(packet.length, self.table.rows[row].share);
        let state = &mut self.rows[row];
        state.head = Some(packet);
        state.start = start;
        state.finish = start + charge;
    }
}
