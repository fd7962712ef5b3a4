//! The program `promise` from its arguments to the sheet it prints.

use std::ffi::{OsStr, OsString};

use crate::answer::number_of;
use crate::events::MOST_BYTES;
use crate::files::Source;
use crate::print::Form;
use crate::program::{read_argument, read_table, refused_table, Response};
use crate::run::{check_rows, MOST_EVENTS};
use crate::shares::is_exact;
use crate::sheet::{climb, Figure};
use crate::table::Table;
use crate::text::{read_number, NotRead};

/// Answers the arguments that follow the program's name.
pub fn respond(arguments: &[OsString]) -> Response {
    read_and_work(arguments).unwrap_or_else(|said| said)
}

/// What a sheet is worked from, besides the table.
struct Numbers {
    largest: u32,
    own: u32,
    /// No class finished more packets.
    packets: u32,
}

impl Numbers {
    fn three(&self) -> u64 {
        3 * u64::from(self.largest)
    }

    /// What each step adds: one for each packet finished, and two more.
    fn ticks(&self) -> u64 {
        u64::from(self.packets) + 2
    }
}

/// The error is what is said of arguments or a file that no sheet is made of.
fn read_and_work(arguments: &[OsString]) -> Result<Response, Response> {
    let (file, largest, rest) = match arguments {
        [file, largest, rest @ ..] if rest.len() <= 2 => (file, largest, rest),
        _ => {
            let wanted = "give a class table and the largest packet, \
                          promise TABLE LARGEST [OWN [PACKETS]]";
            return Err(Response::misunderstood(wanted));
        }
    };
    let largest = read_largest(largest)?;
    let numbers = Numbers {
        largest,
        own: read_optional("OWN", rest.first(), largest)?,
        packets: read_optional("PACKETS", rest.get(1), number_of(MOST_EVENTS))?,
    };
    let file = Source::new(file);
    let columns = read_table(Form::Run, file)?;
    let slices = columns.slices();
    let table = check_rows(&slices)
        .and_then(|()| Table::read(&slices))
        .map_err(|answer| refused_table(Form::Run, file, &slices, &[answer]))?;
    Ok(Response::done(sheet_text(&table, &numbers)))
}

fn read_largest(argument: &OsStr) -> Result<u32, Response> {
    let why = match read_number(argument.as_encoded_bytes()) {
        Ok(largest) if (1..=MOST_BYTES).contains(&largest) => return Ok(largest),
        Err(why @ NotRead::NotDecimal) => format!(": it is {why}"),
        _ => format!(": a packet has 1 to {MOST_BYTES} bytes"),
    };
    Err(Response::cannot_read(OsStr::new("LARGEST"), &why))
}

fn read_optional(name: &str, argument: Option<&OsString>, default: u32) -> Result<u32, Response> {
    argument.map_or(Ok(default), |argument| read_argument(name, argument))
}

fn sheet_text(table: &Table, numbers: &Numbers) -> String {
    let Numbers {
        largest,
        own,
        packets,
    } = numbers;
    let (three, ticks) = (numbers.three(), numbers.ticks());
    let mut text = format!(
        "own bytes {own}, largest packet {largest}, three packets {three}, \
         packets finished {packets}, ticks {ticks}\n"
    );
    for row in (1..table.rows.len()).filter(|row| table.rows[*row].children.is_empty()) {
        text.push_str(&class_text(table, row, numbers));
    }
    text
}

/// The steps from the class in `row` up to the root's child, after an empty line.
fn class_text(table: &Table, row: usize, numbers: &Numbers) -> String {
    let mut path = table.path(row);
    path.pop();
    let shares: Vec<u32> = path.iter().map(|at| table.rows[*at].share).collect();
    let (own, three, ticks) = (numbers.own, numbers.three(), numbers.ticks());
    let figures = climb(own, three, ticks, &shares);
    let identifier = |row: usize| table.rows[row].identifier;
    let mut text = format!(
        "\nclass {} (row {row})\n  own bytes: {own}\n",
        identifier(row)
    );
    for ((at, share), pair) in path.iter().zip(&shares).zip(figures.windows(2)) {
        let [before, after] = [pair[0], pair[1]].map(figure_text);
        let class = identifier(*at);
        text.push_str(&format!(
            "  class {class}: ({before} + {three}) * 840 / {share} + {ticks} / 840 = {after}\n"
        ));
    }
    text + &line_text(last(&figures)) + &without_ticks_text(&shares, numbers)
}

fn figure_text(figure: Option<Figure>) -> String {
    figure.map_or_else(|| "outgrown".to_string(), |figure| figure.to_string())
}

/// The figure for the line.
fn last(figures: &[Option<Figure>]) -> Option<Figure> {
    figures.last().copied().flatten()
}

fn line_text(figure: Option<Figure>) -> String {
    match figure {
        None => "  the line: no number, since the working outgrows 64 bits\n".to_string(),
        Some(figure) => format!("  the line finishes {}\n", at_most(figure)),
    }
}

/// Where no charge of the class is rounded on its way up, no tick is needed.
fn without_ticks_text(shares: &[u32], numbers: &Numbers) -> String {
    let figures = climb(numbers.own, numbers.three(), 0, shares);
    match last(&figures) {
        Some(figure) if shares.iter().all(|share| is_exact(*share)) => format!(
            "  without ticks, since each share above divides 705600: {}\n",
            at_most(figure)
        ),
        _ => String::new(),
    }
}

fn at_most(figure: Figure) -> String {
    match figure.is_whole() {
        true => format!("at most {figure} bytes"),
        false => format!("at most {figure} bytes, rounded up {}", figure.rounded_up()),
    }
}
