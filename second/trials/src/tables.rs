//! Random class tables of several shapes, and even ones.

use std::collections::BTreeSet;

use second::{is_exact, MOST_DEPTH, MOST_IDENTIFIER, MOST_ROWS, WHOLE};

use crate::{Random, Row};

#[derive(Clone, Copy, Debug, PartialEq, Eq)]
pub enum Shape {
    /// All classes under the root.
    Flat,
    /// One class under another; with further ones beside them if shares are filled.
    Chain,
    /// Mostly one under another, with side arms.
    Deep,
    /// Many classes under few.
    Wide,
    /// A class under any row.
    Any,
    /// Flat, with equal shares.
    Even,
    /// Two levels, with equal shares in each.
    Groups,
    /// Three or four levels, with equal shares in each.
    Levels,
    /// The root and one class.
    Two,
    /// As many rows as there may be.
    Full,
}

/// All shapes.
pub const SHAPES: [Shape; 10] = [
    Shape::Flat,
    Shape::Chain,
    Shape::Deep,
    Shape::Wide,
    Shape::Any,
    Shape::Even,
    Shape::Groups,
    Shape::Levels,
    Shape::Two,
    Shape::Full,
];

/// A table that is accepted. Its first class has the given share where that fits. In one of three
/// tables no other charge is rounded, so that finishes of unlike packets can be equal.
pub fn random_table(shape: Shape, first_share: u32, random: &mut Random) -> Vec<Row> {
    let mut growing = Growing::new(identifiers(random), random.one_in(3));
    let goal = match shape {
        Shape::Even => return growing.even(&[random.between(2, 40)], random),
        Shape::Groups => {
            let fans = [random.between(2, 6), random.between(2, 8)];
            return growing.even(&fans, random);
        }
        Shape::Levels => return growing.even(&random_fans(random), random),
        Shape::Full => return growing.full(first_share, random),
        Shape::Two => 2,
        Shape::Flat => random.between(3, 40),
        Shape::Chain => random.between(3, 1 + MOST_DEPTH),
        Shape::Deep => random.between(4, 30),
        Shape::Wide => random.between(20, 80),
        Shape::Any => random.between(3, 60),
    };
    growing.grow(shape, goal, first_share, random);
    if shape != Shape::Two && random.one_in(2) {
        growing.fill(random);
    }
    growing.rows
}

/// Of three or four levels, with at most 155 classes in all. Where a row has two children
/// of equal shares their finishes are seldom equal, so there are mostly more.
fn random_fans(random: &mut Random) -> Vec<usize> {
    let (levels, most) = random.pick(&[(3, 5), (4, 3)]);
    let fan = |_| random.between(2, most).max(random.between(2, most));
    (0..levels).map(fan).collect()
}

/// A table with this many classes under each row, level by level, and equal shares, under which no
/// charge is rounded. Its identifiers are 1, 2 and so on.
pub fn even_table(fans: &[usize]) -> Vec<Row> {
    let growing = Growing::new((1..=MOST_ROWS as u32).collect(), true);
    growing.even(fans, &mut Random::new(0, 0))
}

/// A table as it grows: besides its rows, what each row still has to give.
struct Growing {
    rows: Vec<Row>,
    depths: Vec<usize>,
    left: Vec<u32>,
    names: Vec<u32>,
    /// Whether shares are such that no charge is rounded.
    exact: bool,
}

impl Growing {
    fn new(names: Vec<u32>, exact: bool) -> Growing {
        let root = Row {
            identifier: names[0],
            parent: 0,
            share: 0,
        };
        Growing {
            rows: vec![root],
            depths: vec![0],
            left: vec![WHOLE],
            names,
            exact,
        }
    }

    /// This many classes under each row, level by level, and equal shares: as large as they may
    /// be, or at least half of that where charges may be rounded.
    fn even(mut self, fans: &[usize], random: &mut Random) -> Vec<Row> {
        let mut level = vec![0];
        for fan in fans {
            let first = self.rows.len();
            let most = WHOLE as usize / fan;
            let share = match self.exact {
                true => self.fitting(most as u32),
                false => random.between(most.div_ceil(2), most) as u32,
            };
            for parent in level {
                (0..*fan).for_each(|_| self.add(parent, share));
            }
            level = (first..self.rows.len()).collect();
        }
        self.rows
    }

    /// 256 rows, most of the rows with children giving all that they have.
    fn full(mut self, first_share: u32, random: &mut Random) -> Vec<Row> {
        let shape = random.pick(&[Shape::Flat, Shape::Deep, Shape::Wide, Shape::Any]);
        let first_share = first_share.min(WHOLE / 2);
        if shape != Shape::Flat {
            let goal = random.between(120, 220);
            self.grow(shape, goal, first_share, random);
            self.fill(random);
        }
        self.grow(shape, MOST_ROWS, first_share, random);
        self.rows
    }

    fn add(&mut self, parent: usize, share: u32) {
        self.rows.push(Row {
            identifier: self.names[self.rows.len()],
            parent: self.rows[parent].identifier,
            share,
        });
        self.depths.push(self.depths[parent] + 1);
        self.left.push(WHOLE);
        self.left[parent] -= share;
    }

    /// Adds classes until there are so many rows, or no row can have a further one.
    fn grow(&mut self, shape: Shape, goal: usize, first_share: u32, random: &mut Random) {
        let spread = random.one_in(2);
        while self.rows.len() < goal {
            let Some(parent) = self.parent(shape, random) else {
                return;
            };
            let to_come = (goal - self.rows.len()) as u32;
            let most = match shape {
                Shape::Flat => most_of_flat(self.left[parent], to_come, spread),
                _ => self.left[parent],
            };
            let share = match self.rows.len() {
                1 if first_share <= most => first_share,
                1 => self.fitting(most),
                _ => self.share(most, random),
            };
            self.add(parent, share);
        }
    }

    fn parent(&self, shape: Shape, random: &mut Random) -> Option<usize> {
        let rows = self.rows.len();
        let wish = match shape {
            Shape::Flat => 0,
            Shape::Chain => rows - 1,
            Shape::Deep if !random.one_in(3) => rows - 1,
            Shape::Wide => random.below(rows.min(4)),
            _ => random.below(rows),
        };
        if self.can_be_parent(wish) {
            return Some(wish);
        }
        let others: Vec<usize> = (0..rows).filter(|r| self.can_be_parent(*r)).collect();
        (!others.is_empty()).then(|| random.pick(&others))
    }

    fn can_be_parent(&self, row: usize) -> bool {
        self.depths[row] < MOST_DEPTH && self.left[row] > 0
    }

    /// Gives all that is left of each parent to further classes below it.
    fn fill(&mut self, random: &mut Random) {
        for row in 0..self.rows.len() {
            let begun = self.left[row] < WHOLE;
            while begun && self.left[row] > 0 && self.rows.len() < MOST_ROWS {
                let most = self.left[row];
                let share = match random.one_in(2) {
                    true => self.fitting(most),
                    false => self.share(most, random),
                };
                self.add(row, share);
            }
        }
    }

    /// Some share up to this number, which must not be 0.
    fn share(&self, most: u32, random: &mut Random) -> u32 {
        let wish = match random.below(4) {
            0 => most,
            1 => most / random.between(2, 6) as u32,
            2 => any_share(random),
            _ => random.between(1, most as usize) as u32,
        };
        self.fitting(wish.clamp(1, most))
    }

    /// The greatest share up to this number that the table may have.
    fn fitting(&self, most: u32) -> u32 {
        let fits = |share: &u32| !self.exact || is_exact(*share);
        (1..=most).rev().find(fits).unwrap_or(1)
    }
}

/// What the next of so many classes may have, so that something is left for each; if
/// shares are to be spread, not much more than its part.
fn most_of_flat(left: u32, to_come: u32, spread: bool) -> u32 {
    let part = if spread { 3 * left / to_come } else { left };
    part.min(left - (to_come - 1))
}

pub fn any_share(random: &mut Random) -> u32 {
    random.between(1, WHOLE as usize) as u32
}

/// Distinct identifiers for a full table: small, large, of many lengths or any.
fn identifiers(random: &mut Random) -> Vec<u32> {
    let style = random.below(5);
    let mut used = BTreeSet::new();
    let mut names = Vec::new();
    while names.len() < MOST_ROWS {
        let name = match style {
            0 => names.len() as u32 + 1,
            1 => MOST_IDENTIFIER - names.len() as u32,
            2 => random.between(1, 999) as u32,
            3 => near_power_of_ten(random),
            _ => any_identifier(random),
        };
        if is_identifier(name) && used.insert(name) {
            names.push(name);
        }
    }
    // Where they are the largest, the very largest is not always the root's.
    names.swap(0, random.below(6));
    names
}

fn is_identifier(name: u32) -> bool {
    (1..=MOST_IDENTIFIER).contains(&name)
}

fn any_identifier(random: &mut Random) -> u32 {
    random.between(1, MOST_IDENTIFIER as usize) as u32
}

/// Goes round below 0, so that the largest numbers come up too.
fn near_power_of_ten(random: &mut Random) -> u32 {
    let power = 10_u32.pow(random.below(10) as u32);
    let beside = random.below(120) as u32;
    power.wrapping_add(beside).wrapping_sub(60)
}

fn is_free(rows: &[Row], name: u32) -> bool {
    name != 0 && rows.iter().all(|r| r.identifier != name)
}

/// An identifier that no row has and that a row can be given.
pub fn fresh_identifier(rows: &[Row], random: &mut Random) -> u32 {
    loop {
        let name = any_identifier(random);
        if is_free(rows, name) {
            return name;
        }
    }
}

/// A number above 0 that no row has as its identifier: half of the time one that a row has in its
/// low 16 bits, and of the others some that no row can have.
pub fn unknown_identifier(rows: &[Row], random: &mut Random) -> u32 {
    loop {
        let name = match random.below(6) {
            0 => near_power_of_ten(random),
            1 => any_identifier(random),
            2 => random.word(),
            _ => same_on_air(random.pick(rows).identifier, random),
        };
        if is_free(rows, name) {
            return name;
        }
    }
}

/// A number over the largest identifier that has the same low 16 bits.
pub fn same_on_air(identifier: u32, random: &mut Random) -> u32 {
    let any = random.between(1, 0xffff) as u32;
    let high = random.pick(&[1, 2, 1 << 8, 1 << 15, 0xffff, any]);
    (high << 16) | (identifier & 0xffff)
}

#[cfg(test)]
mod tests {
    use std::collections::BTreeMap;

    use super::*;
    use crate::Case;

    fn tables(shape: Shape) -> impl Iterator<Item = Vec<Row>> {
        (0..200).map(move |list| random_table(shape, 840, &mut Random::new(1, list)))
    }

    fn depths(rows: &[Row]) -> Vec<usize> {
        let mut depths = vec![0];
        for row in &rows[1..] {
            let above = rows.iter().position(|r| r.identifier == row.parent);
            depths.push(depths[above.expect("a class has a parent")] + 1);
        }
        depths
    }

    /// For each row with children, what their shares add up to.
    fn sums(rows: &[Row]) -> Vec<u32> {
        let mut sums = BTreeMap::new();
        for row in &rows[1..] {
            *sums.entry(row.parent).or_insert(0) += row.share;
        }
        sums.into_values().collect()
    }

    #[test]
    fn every_table_is_accepted() {
        for shape in SHAPES {
            for rows in tables(shape) {
                let events = Vec::new();
                assert_eq!(Case { rows, events }.answer().number, 0, "{shape:?}");
            }
        }
    }

    #[test]
    fn each_share_can_come_first_and_at_other_places() {
        let mut others = BTreeSet::new();
        for share in 1..=WHOLE {
            let rows = random_table(Shape::Any, share, &mut Random::new(1, share.into()));
            assert_eq!(rows[1].share, share);
            others.extend(rows[2..].iter().map(|row| row.share));
        }
        assert!(others.len() > 700);
    }

    #[test]
    fn some_tables_round_no_charge_and_most_do() {
        for shape in SHAPES {
            let exact = |rows: &Vec<Row>| rows[1..].iter().all(|row| is_exact(row.share));
            let count = tables(shape).filter(exact).count();
            // The only class of the smallest tables has the share that is asked for.
            let most = if shape == Shape::Two { 200 } else { 140 };
            assert!((40..=most).contains(&count), "{shape:?}: {count}");
        }
    }

    #[test]
    fn two_and_256_rows_come_up() {
        assert!(tables(Shape::Two).all(|rows| rows.len() == 2));
        assert!(tables(Shape::Full).all(|rows| rows.len() == 256));
    }

    #[test]
    fn chains_and_deep_tables_reach_depth_8() {
        for shape in [Shape::Chain, Shape::Deep] {
            let deepest = tables(shape).flat_map(|rows| depths(&rows)).max();
            assert_eq!(deepest, Some(8));
        }
    }

    #[test]
    fn levels_are_three_or_four_with_equal_shares() {
        let mut deepest = BTreeSet::new();
        for rows in tables(Shape::Levels) {
            let depths = depths(&rows);
            let levels: BTreeSet<_> = depths.iter().zip(rows.iter().map(|r| r.share)).collect();
            let most = depths.iter().max().copied().unwrap_or(0);
            assert_eq!(levels.len(), most + 1);
            deepest.insert(most);
        }
        assert_eq!(deepest, BTreeSet::from([3, 4]));
    }

    #[test]
    fn some_tables_are_filled_and_some_are_not() {
        for shape in [Shape::Flat, Shape::Deep, Shape::Wide, Shape::Any] {
            let filled = |rows: Vec<Row>| sums(&rows).iter().all(|sum| *sum == WHOLE);
            let seen: BTreeSet<bool> = tables(shape).map(filled).collect();
            assert_eq!(seen.len(), 2, "{shape:?}");
        }
    }

    #[test]
    fn the_largest_identifier_comes_up() {
        let is_largest = |row: &Row| row.identifier == MOST_IDENTIFIER;
        for place in [0, 1, 2] {
            let mut rows = tables(Shape::Any).filter_map(|rows| rows.get(place).copied());
            assert!(rows.any(|row| is_largest(&row)), "of row {place}");
        }
    }

    #[test]
    fn unknown_identifiers_are_of_many_kinds() {
        let rows = even_table(&[3]);
        let mut random = Random::new(1, 1);
        let names: Vec<u32> = (0..1000)
            .map(|_| unknown_identifier(&rows, &mut random))
            .collect();
        let count = |is: fn(u32) -> bool| names.iter().filter(|name| is(**name)).count();
        assert_eq!(count(|name| (1..=4).contains(&name)), 0);
        assert!(count(|name| (1..=4).contains(&(name & 0xffff))) > 300);
        assert!(count(is_identifier) > 100);
        assert!(count(|name| name > MOST_IDENTIFIER) > 500);
    }
}
