//! The rows; and their tags, with those of one row's children side by side.

use crate::words::MOST_ROWS;

/// A parent's whole in parts, and the ticks of one byte.
pub const WHOLE: u32 = 840;

/// What a byte costs under share 1, in ticks.
const SCALE: u32 = WHOLE * WHOLE;

pub type Rows = [Row; MOST_ROWS];

/// A row but for its tags. Rows and seats are bytes, so that an index needs no check.
#[derive(Clone, Copy, Default)]
pub struct Row {
    pub parent: u8,
    pub depth: u8,
    /// Where its own tags are.
    pub seat: u8,
    /// Where its children's are, and how many these are.
    pub first: u8,
    pub children: u8,
    pub share: u32,
    /// The scale over the share, and what is left then.
    cost: u32,
    rest: u32,
    /// That of its last head.
    pub start: u64,
    pub virtual_time: u64,
    pub bytes: u64,
    pub held: u64,
    /// Its bytes and its parent's when its backlog began.
    pub bytes_then: u64,
    pub parent_bytes_then: u64,
    /// The last packet of its queue.
    pub last: u32,
}

impl Row {
    pub fn set_share(&mut self, share: u32) {
        self.share = share;
        self.cost = SCALE / share;
        self.rest = SCALE % share;
    }

    /// Ticks that a packet costs, rounded up. What is divided has 32 bits, which is quicker.
    pub fn charge(&self, length: u16) -> u64 {
        let rest = u32::from(length) * self.rest;
        u64::from(length) * u64::from(self.cost) + u64::from(rest.div_ceil(self.share))
    }
}

/// A packet at the head of a row.
#[derive(Clone, Copy)]
pub struct Head {
    /// The place of its event + 1; 0 where there is none.
    pub place: u32,
    pub length: u16,
    pub class: u8,
}

/// What a parent sees of a row.
#[derive(Clone, Copy)]
pub struct Tags {
    /// `NEVER` where the row has no head.
    pub start: u64,
    pub finish: u64,
    pub head: Head,
}

/// No virtual time comes to this.
const NEVER: u64 = u64::MAX;

pub const IDLE: Tags = Tags {
    start: NEVER,
    finish: 0,
    head: Head {
        place: 0,
        length: 0,
        class: 0,
    },
};

impl Tags {
    pub fn has_head(&self) -> bool {
        self.head.place != 0
    }

    pub fn lose_head(&mut self) {
        self.start = NEVER;
        self.head.place = 0;
    }

    /// Whether it is taken before another one that is eligible as well.
    fn goes_before(&self, other: &Tags) -> bool {
        self.finish < other.finish
            || self.finish == other.finish && self.head.place < other.head.place
    }
}

/// The head of the child that a row takes, and the row's virtual time, raised. Those that have
/// started are alike in that; where none has, those of the least start are taken to have.
pub fn choice(children: &[Tags], time: u64) -> Option<(Head, u64)> {
    let mut taken = &IDLE;
    let mut raised = NEVER;
    for child in children {
        let from = child.start.max(time);
        if from < raised || from == raised && child.goes_before(taken) {
            taken = child;
            raised = from;
        }
    }
    (raised != NEVER).then_some((taken.head, raised))
}
