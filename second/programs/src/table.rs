//! The class table as a tree of rows, and refusals 4 to 10 and 15.

use crate::answer::Answer;
use crate::shares;
use crate::slices::TableSlices;

pub const MOST_DEPTH: usize = 8;

/// The modem sends the low 16 bits of an identifier and no more.
pub const MOST_IDENTIFIER: u32 = 65_535;

pub struct Row {
    pub identifier: u32,
    /// The parent's identifier as it is written.
    parent_written: u32,
    /// The first row above with that identifier. In an accepted table the root alone has none.
    pub parent: Option<usize>,
    pub share: u32,
    pub depth: usize,
    /// The children's rows, ascending.
    pub children: Vec<usize>,
}

pub struct Table {
    pub rows: Vec<Row>,
}

/// A row whose parent is told by its row.
pub struct Linked {
    pub identifier: u32,
    pub parent: Option<usize>,
    pub share: u32,
    pub depth: usize,
}

impl Table {
    /// The table, or its first refusal.
    pub fn read(slices: &TableSlices) -> Result<Table, Answer> {
        let table = Table::standing(slices);
        let first = table.refusals().next();
        first.map_or(Ok(table), Err)
    }

    /// The rows as they stand, those that are refused among them.
    pub fn standing(slices: &TableSlices) -> Table {
        let mut table = Table { rows: Vec::new() };
        let parents_and_shares = slices.parents.iter().zip(slices.shares);
        for (identifier, (parent, share)) in slices.identifiers.iter().zip(parents_and_shares) {
            table.add_row(*identifier, *parent, *share);
        }
        table
    }

    /// The tree of an accepted table's rows. A parent may be any of them.
    pub fn linked(linked: impl IntoIterator<Item = Linked>) -> Table {
        let linked: Vec<Linked> = linked.into_iter().collect();
        let row = |row: (usize, &Linked)| {
            let (row, this) = row;
            let numbered = linked.iter().enumerate();
            let children = numbered.filter(|(_, other)| other.parent == Some(row));
            Row {
                identifier: this.identifier,
                parent_written: this.parent.map_or(0, |parent| linked[parent].identifier),
                parent: this.parent,
                share: this.share,
                depth: this.depth,
                children: children.map(|(child, _)| child).collect(),
            }
        };
        let rows = linked.iter().enumerate().map(row).collect();
        Table { rows }
    }

    /// The rows' own refusals one after another, then those of the sums of shares.
    pub fn refusals(&self) -> impl Iterator<Item = Answer> + '_ {
        let rows = 0..self.rows.len();
        let own = rows.clone().filter_map(move |row| self.row_refusal(row));
        own.chain(rows.filter_map(move |row| self.sum_refusal(row)))
    }

    /// The first row with this identifier, if there is one.
    pub fn find(&self, identifier: u32) -> Option<usize> {
        self.rows.iter().position(|r| r.identifier == identifier)
    }

    /// The rows from this one up to the root, both included.
    pub fn path(&self, row: usize) -> Vec<usize> {
        let mut path = vec![row];
        let mut at = row;
        while let Some(parent) = self.rows[at].parent {
            path.push(parent);
            at = parent;
        }
        path
    }

    /// The rows right under this one, if it is there.
    pub fn children(&self, row: usize) -> impl Iterator<Item = &Row> {
        let children = self.rows.get(row).into_iter().flat_map(|r| &r.children);
        children.map(move |child| &self.rows[*child])
    }

    /// What the shares of a row's children come to.
    pub fn children_share(&self, row: usize) -> u64 {
        self.children(row).map(|child| u64::from(child.share)).sum()
    }

    fn add_row(&mut self, identifier: u32, parent_written: u32, share: u32) {
        let row = self.rows.len();
        // Only the rows above are in the table by now, so none finds itself.
        let parent = self.find(parent_written);
        // A class without a parent stands as one right under the line.
        let above = parent.map_or(0, |parent| self.rows[parent].depth);
        if let Some(parent) = parent {
            self.rows[parent].children.push(row);
        }
        self.rows.push(Row {
            identifier,
            parent_written,
            parent,
            share,
            depth: if row == 0 { 0 } else { above + 1 },
            children: Vec::new(),
        });
    }

    fn row_refusal(&self, row: usize) -> Option<Answer> {
        let identifier = self.rows[row].identifier;
        if identifier == 0 {
            return Some(Answer::refused(4, row));
        }
        if identifier > MOST_IDENTIFIER {
            return Some(Answer::refused(15, row));
        }
        match row {
            0 => self.root_refusal(),
            _ => self.class_refusal(row),
        }
    }

    fn root_refusal(&self) -> Option<Answer> {
        let root = &self.rows[0];
        let plain = root.parent_written == 0 && root.share == 0;
        (!plain).then(|| Answer::refused(6, 0))
    }

    fn class_refusal(&self, row: usize) -> Option<Answer> {
        let class = &self.rows[row];
        let first = self.find(class.identifier);
        if let Some(earlier) = first.filter(|first| *first < row) {
            return Some(Answer::repeated(row, earlier));
        }
        if class.parent.is_none() {
            return Some(Answer::refused(7, row));
        }
        if !shares::is_allowed(class.share) {
            return Some(Answer::refused(8, row));
        }
        (class.depth > MOST_DEPTH).then(|| Answer::refused(9, row))
    }

    fn sum_refusal(&self, row: usize) -> Option<Answer> {
        let over = self.children_share(row) > u64::from(shares::WHOLE);
        over.then(|| Answer::refused(10, row))
    }
}
