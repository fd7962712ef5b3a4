//! The program `table` from its argument to the tree it draws.

use std::ffi::OsString;
use std::fmt;

use crate::answer::Answer;
use crate::files::Source;
use crate::print::Form;
use crate::program::{read_table, refused_table, Response};
use crate::run::check_rows;
use crate::shares::WHOLE;
use crate::slices::TableSlices;
use crate::table::Table;

/// Answers the arguments that follow the program's name.
pub fn respond(arguments: &[OsString]) -> Response {
    read_and_draw(arguments).unwrap_or_else(|said| said)
}

/// The error is what is said where no tree is drawn.
fn read_and_draw(arguments: &[OsString]) -> Result<Response, Response> {
    let [file] = arguments else {
        let wanted = "give a class table, table TABLE";
        return Err(Response::misunderstood(wanted));
    };
    let file = Source::new(file);
    let columns = read_table(Form::Run, file)?;
    let slices = columns.slices();
    let table =
        accepted(&slices).map_err(|answers| refused_table(Form::Run, file, &slices, &answers))?;
    Ok(Response::done(tree_text(&table)))
}

/// The table, or all that is refused of it.
fn accepted(slices: &TableSlices) -> Result<Table, Vec<Answer>> {
    // How many rows there may be comes before what they hold.
    check_rows(slices).map_err(|answer| vec![answer])?;
    let table = Table::standing(slices);
    let refusals: Vec<Answer> = table.refusals().collect();
    match refusals.is_empty() {
        true => Ok(table),
        false => Err(refusals),
    }
}

fn tree_text(table: &Table) -> String {
    let heading = line_text("class", ["share", "% of parent", "% of the line"]);
    heading + &row_text(table, 0, Part::ALL)
}

/// A row and all that is below it, given its part of the line.
fn row_text(table: &Table, row: usize, of_line: Part) -> String {
    let this = &table.rows[row];
    let name = format!("{}{}", "  ".repeat(this.depth), this.identifier);
    let (share, of_parent) = match this.parent {
        None => (String::new(), String::new()),
        Some(_) => (
            this.share.to_string(),
            Part::ALL.times(this.share).to_string(),
        ),
    };
    let mut text = line_text(&name, [&share, &of_parent, &of_line.to_string()]);
    for child in &this.children {
        let of_line = of_line.times(table.rows[*child].share);
        text.push_str(&row_text(table, *child, of_line));
    }
    text
}

fn line_text(name: &str, [share, of_parent, of_line]: [&str; 3]) -> String {
    format!("{name:<22}{share:>5}  {of_parent:>11}  {of_line:>13}\n")
}

/// A part of a whole, exactly. Eight shares, times the hundredths of a per cent in a whole, are far
/// below 2^128.
#[derive(Clone, Copy)]
struct Part {
    shares: u128,
    wholes: u128,
}

impl Part {
    const ALL: Part = Part {
        shares: 1,
        wholes: 1,
    };

    /// The part of it that a share is.
    fn times(self, share: u32) -> Part {
        Part {
            shares: self.shares * u128::from(share),
            wholes: self.wholes * u128::from(WHOLE),
        }
    }
}

impl fmt::Display for Part {
    /// In per cent, cut after two decimals.
    fn fmt(&self, to: &mut fmt::Formatter) -> fmt::Result {
        match self.shares * 10_000 / self.wholes {
            0 => to.write_str("< 0.01"),
            hundredths => write!(to, "{}.{:02}", hundredths / 100, hundredths % 100),
        }
    }
}
