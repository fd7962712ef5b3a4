//! What the results of a run do not show: how its choices were decided, and its last heads.

use std::ops::AddAssign;

/// How many choices there were, a row taking a child each time.
#[derive(Clone, Copy, Debug, Default, PartialEq, Eq)]
pub struct Choices {
    pub made: u64,
    /// Those with two or more eligible children of the same least finish.
    pub by_place: u64,
    /// Of these, those that took another row than the lowest of the equal ones.
    pub not_lowest: u64,
}

impl Choices {
    /// One more choice, with the places of the heads of equal finish in the order of rows.
    pub(crate) fn count(&mut self, mut equal: impl Iterator<Item = u32>, taken: u32) {
        self.made += 1;
        let lowest = equal.next();
        if equal.next().is_some() {
            self.by_place += 1;
            self.not_lowest += u64::from(lowest != Some(taken));
        }
    }
}

impl AddAssign for Choices {
    fn add_assign(&mut self, more: Choices) {
        self.made += more.made;
        self.by_place += more.by_place;
        self.not_lowest += more.not_lowest;
    }
}

/// An accepted run from inside.
#[derive(Clone, Debug, PartialEq, Eq)]
pub struct Inside {
    pub choices: Choices,
    /// For each row, the place of the head packet that it ends with.
    pub heads: Vec<Option<u32>>,
}
