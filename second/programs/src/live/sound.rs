//! When a state is sound, condition by condition, in numbers without bound and whatever the words
//! hold.

use crate::events::MOST_BYTES;
use crate::live::words::{State, StateHead, StateRow};
use crate::live::MOST_ACCEPTED;
use crate::shares::{self, UNIT_COST, WHOLE};
use crate::table::{MOST_DEPTH, MOST_IDENTIFIER};

/// Whether the words of a whole state are sound.
pub fn is_sound(words: &[u64]) -> bool {
    state(words).is_some()
}

/// The words in use; nothing if they are not sound.
pub fn state(words: &[u64]) -> Option<State> {
    State::read(words).filter(|state| {
        // Each one may rely on those before it.
        let conditions: [fn(&State) -> bool; 7] =
            [counts, tree, packets, holding, tags, sizes, bytes];
        conditions.iter().all(|holds| holds(state))
    })
}

fn wide(word: u64) -> u128 {
    u128::from(word)
}

impl State {
    /// The rows with their numbers.
    fn numbered(&self) -> impl Iterator<Item = (u64, &StateRow)> {
        (0..).zip(&self.rows)
    }

    /// The row with this number, if it is in use.
    fn row(&self, number: u64) -> Option<&StateRow> {
        self.rows.get(usize::try_from(number).ok()?)
    }

    /// The root counts as its own parent.
    fn parent(&self, row: &StateRow) -> &StateRow {
        self.row(row.parent).unwrap_or(&self.rows[0])
    }

    /// All rows but the root.
    fn classes(&self) -> impl Iterator<Item = &StateRow> {
        self.rows.iter().skip(1)
    }

    fn children(&self, parent: u64) -> impl Iterator<Item = &StateRow> {
        self.classes().filter(move |row| row.parent == parent)
    }

    fn sends(&self, number: u64) -> bool {
        number != 0 && self.row(number).is_some() && self.children(number).next().is_none()
    }

    /// Packets that have left.
    fn left(&self) -> u128 {
        wide(self.accepted).saturating_sub(self.packets.len() as u128)
    }

    /// Accepted events so far.
    fn events(&self) -> u128 {
        wide(self.accepted) + self.left()
    }

    /// No virtual time of this row, and no tag that its children are chosen by, is over this.
    fn most(&self, row: &StateRow) -> u128 {
        let taken = self.left() + u128::from(row.has_head());
        u128::from(UNIT_COST) * u128::from(MOST_BYTES) * taken
    }
}

impl StateRow {
    fn has_head(&self) -> bool {
        self.head.after_name != 0
    }
}

/// As many packets as may be were accepted, and no fewer than are held.
fn counts(state: &State) -> bool {
    let held = state.packets.len() as u64;
    (held..=u64::from(MOST_ACCEPTED)).contains(&state.accepted)
}

fn tree(state: &State) -> bool {
    let root = &state.rows[0];
    let root_is_plain = root.parent == 0 && root.depth == 0 && root.share == 0;
    root_is_plain
        && (0..state.rows.len()).all(|row| is_named(state, row))
        && state.classes().all(|class| stands(state, class))
        && state.numbered().all(|(row, _)| shares_fit(state, row))
}

/// Whether the row's identifier can be sent, and no earlier row has it.
fn is_named(state: &State, row: usize) -> bool {
    let identifier = state.rows[row].identifier;
    let mut earlier = state.rows[..row].iter();
    (1..=u64::from(MOST_IDENTIFIER)).contains(&identifier)
        && earlier.all(|other| other.identifier != identifier)
}

/// Whether a class stands right below a row in use, not too deep, with a share that is allowed.
fn stands(state: &State, class: &StateRow) -> bool {
    let below = |parent: &StateRow| wide(class.depth) == wide(parent.depth) + 1;
    state.row(class.parent).is_some_and(below)
        && class.depth <= MOST_DEPTH as u64
        && u32::try_from(class.share).is_ok_and(shares::is_allowed)
}

fn shares_fit(state: &State, parent: u64) -> bool {
    let shares = state.children(parent).map(|child| wide(child.share));
    shares.sum::<u128>() <= u128::from(WHOLE)
}

fn packets(state: &State) -> bool {
    let fits = |length| (1..=u64::from(MOST_BYTES)).contains(&length);
    let mut pairs = state.packets.windows(2);
    pairs.all(|pair| pair[0].name < pair[1].name)
        && state.packets.iter().all(|packet| {
            state.sends(packet.class) && fits(packet.length) && wide(packet.name) < state.events()
        })
}

fn holding(state: &State) -> bool {
    state
        .numbered()
        .all(|(number, row)| match state.sends(number) {
            true => class_holds(state, number, row),
            false => part_holds(state, number, row),
        })
}

/// Whether a sending class has its packets of the list, and the first of them as its head.
fn class_holds(state: &State, number: u64, row: &StateRow) -> bool {
    let own = || state.packets.iter().filter(|packet| packet.class == number);
    let head = match own().next() {
        None => row.head == StateHead::default(),
        Some(first) => {
            wide(row.head.after_name) == wide(first.name) + 1
                && row.head.length == first.length
                && row.head.class == number
        }
    };
    row.held == own().count() as u64 && head && row.virtual_time == 0
}

/// Whether any other row holds what its children hold, and has the head of one of them.
fn part_holds(state: &State, number: u64, row: &StateRow) -> bool {
    let held: u128 = state.children(number).map(|child| wide(child.held)).sum();
    let mut heads = state.children(number).filter(|child| child.has_head());
    let head = match row.held {
        0 => row.head == StateHead::default(),
        _ => heads.any(|child| child.head == row.head),
    };
    wide(row.held) == held && head
}

fn tags(state: &State) -> bool {
    let root = &state.rows[0];
    root.start == 0 && root.finish == 0 && state.classes().all(is_charged)
}

/// Whether a class is charged for its head, if it has one.
fn is_charged(class: &StateRow) -> bool {
    if !class.has_head() {
        return class.start <= class.finish;
    }
    match (u32::try_from(class.head.length), u32::try_from(class.share)) {
        (Ok(length), Ok(share)) => {
            wide(class.finish) == wide(class.start) + u128::from(shares::charge(length, share))
        }
        _ => false,
    }
}

fn sizes(state: &State) -> bool {
    let mut rows = state.rows.iter();
    rows.all(|row| wide(row.virtual_time) <= state.most(row))
        && state.classes().all(|class| is_bounded(state, class))
}

/// Whether the tag that counts for this class is not over its parent's most: of a head that the
/// parent has not taken the start, else the finish.
fn is_bounded(state: &State, class: &StateRow) -> bool {
    let parent = state.parent(class);
    let waits = class.has_head() && class.head.class != parent.head.class;
    let tag = if waits { class.start } else { class.finish };
    wide(tag) <= state.most(parent)
}

fn bytes(state: &State) -> bool {
    let most = u128::from(MOST_BYTES) * state.left();
    state.rows.iter().all(|row| {
        wide(row.bytes) <= most
            && row.bytes_then <= row.bytes
            && row.parent_bytes_then <= state.parent(row).bytes
    })
}
