//! Files that are odd, cannot be read or cannot be written, and calls that are none.

mod lists;
mod states;
mod system;

use std::fs;
use std::os::unix::fs::symlink;

use crate::day::{LIST, STATE, TABLE};
use crate::pair::{wrong, Pair, Tried};
use crate::shown::whole_print;
use crate::talk::unwritable_later;
use crate::tally::{Met, HEADING};
use lists::{
    headings, line_ends, long_lines, long_list, neither_room_nor_count, refused_list, unread_lists,
};
use states::{
    beside, fresh_over, links, names_of_no_text, odd_names, one_for_two, sizes, unread_states,
    unread_tables, unwritten_states,
};
use system::{closed_files, closed_folder, closed_output, cut_off, full_disk, full_streams};
use trials::{End, Printed};

const ROWS: &str = "identifier,parent,share\r\n1,0,0\r\n10,1,420\r\n20,1,400\r\n30,1,20\r\n";
const EVENTS: &str = "class,length\n10,100\n7,7\n20,9000\n0,0\n30,1\n0,0\n";

const USAGE: &str = "cannot read: give what to do and its files, live fresh TABLE STATE, \
                     live events STATE EVENTS or live report STATE\n";
const OWN_FILE: &str = "cannot read: the state is a file of its own and cannot be standard input; \
                        a file called - is ./-\n";
const NO_FILE: &str = "there is no such file\n";
const FOLDER: &str = "it is a folder\n";

/// A trial by its name; both folders have a table, a fresh state of it and a list.
pub type Trial = (&'static str, fn(&mut Pair) -> Tried<()>);

pub const TRIALS: [Trial; 26] = [
    ("wrong calls", wrong_calls),
    ("a state called like standard input", dash),
    ("states of other sizes", sizes),
    ("states that cannot be read", unread_states),
    ("lists that cannot be read", unread_lists),
    ("tables that cannot be read", unread_tables),
    ("states that cannot be written", unwritten_states),
    ("what stands beside a state", beside),
    ("links to states", links),
    ("one file for two", one_for_two),
    ("a fresh state over another", fresh_over),
    ("odd names", odd_names),
    ("names of no text", names_of_no_text),
    ("lists without a heading", headings),
    ("line ends", line_ends),
    ("neither room nor a count", neither_room_nor_count),
    ("a list of over 65,536 events", long_list),
    ("a list with refusals alone", refused_list),
    ("long lines", long_lines),
    ("a state that cannot be written later", unwritable_later),
    ("a file that is cut off", cut_off),
    ("streams that are full", full_streams),
    ("standard output that is closed", closed_output),
    ("a folder that may not be written", closed_folder),
    ("files that may not be read", closed_files),
    ("a disk that is full", full_disk),
];

/// Makes the trial in folders of its own.
pub fn odd(pair: &mut Pair, number: usize) -> Tried<()> {
    let (_, trial) = TRIALS[number];
    pair.clear()?;
    pair.put(TABLE, ROWS.as_bytes())?;
    pair.put(LIST, EVENTS.as_bytes())?;
    pair.ask(&["fresh", TABLE, STATE])?;
    trial(pair)
}

impl Pair {
    /// Both must print this: answers below the heading, or none and no heading, and a sentence.
    fn wants(&mut self, arguments: &[&str], answers: Option<&str>, said: &str) -> Tried<()> {
        let printed = self.ask(arguments)?;
        self.is(arguments, &printed, answers, said)
    }

    /// What is printed is this, with the status that goes with it.
    fn is(
        &mut self,
        arguments: &[&str],
        printed: &Printed,
        answers: Option<&str>,
        said: &str,
    ) -> Tried<()> {
        let output = answers.map_or(String::new(), |answers| {
            format!("{HEADING}\n{answers}").replace('\n', "\r\n")
        });
        let cannot = ["cannot read", "cannot write"];
        let status = match said {
            _ if cannot.iter().any(|begins| said.contains(begins)) => 2,
            "" => 0,
            _ => 1,
        };
        let right = printed.output == output.as_bytes()
            && printed.error == said.as_bytes()
            && printed.end == End::Status(status);
        if status == 2 {
            self.tally.met(Met::CannotRead);
        }
        match right {
            true => Ok(()),
            false => wrong(&format!("live {arguments:?}"), &whole_print(printed)),
        }
    }

    /// The state is this.
    fn kept(&self, asked: &str, state: &[u8]) -> Tried<()> {
        match self.get(STATE)? == state {
            true => Ok(()),
            false => wrong(asked, "the state has changed"),
        }
    }
}

/// Names of nothing that can be read, as a state or as a list, each with what is said of it.
fn unreadable(
    pair: &mut Pair,
    more: &[(&str, &'static str)],
) -> Tried<Vec<(String, &'static str)>> {
    pair.each(|folder| fs::create_dir(folder.join("folder")))?;
    pair.each(|folder| symlink("circle", folder.join("circle")))?;
    let long = "x".repeat(256);
    let all = [
        ("missing", NO_FILE),
        ("", NO_FILE),
        ("folder", FOLDER),
        (&long, "its name is too long\n"),
        ("circle", "the system refuses it with error 40\n"),
    ];
    let named = |(name, why): &(&str, &'static str)| (name.to_string(), *why);
    Ok(all.iter().chain(more).map(named).collect())
}

fn wrong_calls(pair: &mut Pair) -> Tried<()> {
    let before = pair.get(STATE)?;
    let calls: [&[&str]; 17] = [
        &[],
        &[""],
        &["-"],
        &["--help"],
        &["fresh"],
        &["events"],
        &["report"],
        &["fresh", TABLE],
        &["events", STATE],
        &["report", STATE, STATE],
        &["fresh", TABLE, STATE, STATE],
        &["events", STATE, LIST, LIST],
        &["Fresh", TABLE, STATE],
        &["event", STATE, LIST],
        &["reports", STATE],
        &["fresh ", TABLE, STATE],
        &["-", "-", "-"],
    ];
    for call in calls {
        pair.wants(call, None, USAGE)?;
    }
    pair.wants(&["report"; 1000], None, USAGE)?;
    pair.kept("a wrong call", &before)
}

fn dash(pair: &mut Pair) -> Tried<()> {
    pair.put("-", b"x")?;
    for call in [
        &["fresh", TABLE, "-"][..],
        &["fresh", "missing", "-"],
        &["fresh", "-", "-"],
        &["events", "-", LIST],
        &["events", "-", "-"],
        &["report", "-"],
    ] {
        pair.wants(call, None, OWN_FILE)?;
    }
    pair.wants(&["fresh", TABLE, "./-"], Some("0,0,0,0,0\n"), "")?;
    let said = "refused 11 in ./-: line 2 is for class 7, which no row has; \
                name a class of the table.\n";
    pair.put("-", b"class,length\n7,7\n")?;
    pair.wants(&["events", STATE, "./-"], Some("11,0,0,0,0\n"), said)
}
