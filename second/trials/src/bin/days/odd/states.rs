//! States of other sizes, that cannot be read or written, and other files in their place.

use std::ffi::OsStr;
use std::fs;
use std::os::unix::ffi::OsStrExt;
use std::os::unix::fs::symlink;
use std::path::Path;
use std::process::Command;

use crate::day::{LIST, STATE, TABLE};
use crate::odd::{unreadable, FOLDER, NO_FILE, ROWS};
use crate::pair::{wrong, Pair, Tried};
use crate::shown::whole_print;
use crate::tally::HEADING;
use trials::{End, Fed};

const UNSOUND: &str = "this is no sound state of a live box: it was damaged or is another file; \
                       make a fresh one, or bring back one that was kept.\n";

/// The state with this name is refused with 20, and stays as it is.
fn unsound(pair: &mut Pair, name: &str) -> Tried<()> {
    let said = format!("refused 20 in {name}: {UNSOUND}");
    pair.wants(&["report", name], Some("20,0,0,0,0\n"), &said)?;
    pair.wants(&["events", name, LIST], Some("20,0,0,0,0\n"), &said)?;
    // The list is not looked at.
    pair.wants(&["events", name, "missing"], Some("20,0,0,0,0\n"), &said)
}

pub fn sizes(pair: &mut Pair) -> Tried<()> {
    let whole = pair.get(STATE)?;
    let long = whole.repeat(20);
    for size in [
        0,
        1,
        7,
        8,
        55_288,
        55_295,
        55_297,
        55_304,
        110_592,
        long.len(),
    ] {
        pair.put(STATE, &long[..size])?;
        unsound(pair, STATE)?;
        pair.kept("a state of another size", &long[..size])?;
    }
    unsound(pair, TABLE)?;
    unsound(pair, "/dev/null")?;
    // It has no end.
    unsound(pair, "/dev/zero")
}

pub fn unread_states(pair: &mut Pair) -> Tried<()> {
    let more = [
        ("missing/state", NO_FILE),
        ("state/state", NO_FILE),
        ("--", NO_FILE),
        ("/", FOLDER),
    ];
    for (name, why) in unreadable(pair, &more)? {
        let name = name.as_str();
        let said = format!("cannot read {name}: {why}");
        pair.wants(&["report", name], None, &said)?;
        pair.wants(&["events", name, LIST], None, &said)?;
        pair.wants(&["events", name, "missing"], None, &said)?;
    }
    Ok(())
}

pub fn unread_tables(pair: &mut Pair) -> Tried<()> {
    let before = pair.get(STATE)?;
    pair.each(|folder| fs::create_dir(folder.join("folder")))?;
    for (name, why) in [("missing", NO_FILE), ("folder", "it is a folder\n")] {
        let said = format!("cannot read {name}: {why}");
        pair.wants(&["fresh", name, STATE], None, &said)?;
        pair.wants(&["fresh", name, "other"], None, &said)?;
    }
    let said = "refused 40 in /dev/zero: the text has more than 65536 bytes; \
                no table has more than 4371: give it 2 to 256 rows.\n";
    pair.wants(&["fresh", "/dev/zero", STATE], Some("40,0,0,0,0\n"), said)?;
    let said = "refused 47 in /dev/null: the text is empty; \
                begin it with the heading identifier,parent,share.\n";
    pair.wants(&["fresh", "/dev/null", STATE], Some("47,1,0,0,0\n"), said)?;
    let arguments = ["fresh", "-", "piped"];
    let printed = pair.ask_fed(&arguments, |_| Fed::Pipe(ROWS.as_bytes().to_vec()))?;
    pair.is(&arguments, &printed, Some("0,0,0,0,0\n"), "")?;
    pair.kept("a table that cannot be read", &before)
}

pub fn unwritten_states(pair: &mut Pair) -> Tried<()> {
    let state = pair.get(STATE)?;
    let long = "x".repeat(252);
    pair.put(&long, &state)?;
    pair.put("taken", &state)?;
    pair.each(|folder| fs::create_dir(folder.join("folder")))?;
    pair.each(|folder| fs::create_dir(folder.join("taken.new")))?;
    let no_folder = "there is no such folder\n";
    for (name, why) in [
        ("folder", "it is a folder\n"),
        ("taken", "it is a folder\n"),
        ("missing/state", no_folder),
        ("table.csv/state", no_folder),
        ("", no_folder),
        (&long, "its name is too long\n"),
        ("/sys/state", "this user may not write it\n"),
    ] {
        let said = format!("cannot write {name}: {why}");
        pair.wants(&["fresh", TABLE, name], None, &said)?;
    }
    for (name, why) in [
        ("taken", "it is a folder\n"),
        (&long, "its name is too long\n"),
    ] {
        let said = format!("cannot write {name}: {why}");
        pair.wants(&["events", name, LIST], Some(""), &said)?;
        // Where no event is taken there is nothing to be written.
        let said = "refused 11 in -x: line 2 is for class 7, which no row has; \
                    name a class of the table.\n";
        pair.put("-x", b"class,length\r\n7,7\n")?;
        pair.wants(&["events", name, "-x"], Some("11,0,0,0,0\n"), said)?;
        if pair.get(name)? != state {
            return wrong("a state that cannot be written", "it has changed");
        }
    }
    Ok(())
}

pub fn beside(pair: &mut Pair) -> Tried<()> {
    pair.put("state.new", &[7; 70_000])?;
    pair.ask(&["events", STATE, LIST])?;
    pair.each(|folder| symlink("missing", folder.join("state.new")))?;
    pair.ask(&["events", STATE, LIST])?;
    pair.ask(&["report", STATE])?;
    pair.each(|folder| fs::write(folder.join("state.new"), ""))?;
    pair.ask(&["fresh", TABLE, STATE])?;
    pair.put("other.new", b"x")?;
    // What is refused leaves it alone.
    pair.put("one row", &ROWS.as_bytes()[..32])?;
    pair.ask(&["fresh", "one row", "other"])?;
    pair.ask(&["report", "other"]).map(|_| ())
}

pub fn links(pair: &mut Pair) -> Tried<()> {
    let before = pair.get(STATE)?;
    pair.each(|folder| symlink(STATE, folder.join("link")))?;
    pair.ask(&["report", "link"])?;
    pair.ask(&["events", "link", LIST])?;
    pair.kept("a link to it", &before)?;
    pair.each(|folder| symlink("nowhere", folder.join("broken")))?;
    pair.ask(&["report", "broken"])?;
    pair.ask(&["fresh", TABLE, "broken"])?;
    pair.each(|folder| fs::hard_link(folder.join(STATE), folder.join("hard")))?;
    pair.ask(&["events", "hard", LIST])?;
    pair.kept("another name of it", &before)
}

pub fn one_for_two(pair: &mut Pair) -> Tried<()> {
    let before = pair.get(STATE)?;
    // A byte of it is LF, in the identifier of row 1.
    let said = "cannot read state, line 1: the heading must be class,length\n";
    pair.wants(&["events", STATE, STATE], Some(""), said)?;
    pair.kept("a state as its own list", &before)?;
    pair.wants(&["fresh", TABLE, TABLE], Some("0,0,0,0,0\n"), "")?;
    pair.ask(&["events", TABLE, LIST]).map(|_| ())
}

pub fn fresh_over(pair: &mut Pair) -> Tried<()> {
    let fresh = pair.get(STATE)?;
    pair.ask(&["events", STATE, LIST])?;
    pair.wants(&["fresh", TABLE, STATE], Some("0,0,0,0,0\n"), "")?;
    pair.kept("a fresh state over an old one", &fresh)?;
    for old in [&b""[..], b"x", &[0xff; 55_296], &[0xff; 60_000]] {
        pair.put(STATE, old)?;
        pair.wants(&["fresh", TABLE, STATE], Some("0,0,0,0,0\n"), "")?;
        pair.kept("a fresh state over another file", &fresh)?;
    }
    Ok(())
}

pub fn odd_names(pair: &mut Pair) -> Tried<()> {
    for name in [&b"a b"[..], b"-x", b"new\nline", b".new", b"%s%n", b"'\"$x"] {
        let name = OsStr::from_bytes(name);
        let [fresh, events, report] = ["fresh", "events", "report"].map(OsStr::new);
        let [table, state, list] = [TABLE, STATE, LIST].map(OsStr::new);
        let calls: [&[&OsStr]; 6] = [
            &[report, name],
            &[fresh, table, name],
            &[events, name, list],
            &[events, state, name],
            &[report, name],
            &[fresh, name, table],
        ];
        ask_all(pair, &calls)?;
    }
    Ok(())
}

/// Both programs print the same to each of these calls.
fn ask_all(pair: &mut Pair, calls: &[&[&OsStr]]) -> Tried<()> {
    for call in calls {
        let by = |program: &Path| {
            let mut command = Command::new(program);
            command.args(*call);
            command
        };
        pair.ask_by(by, |_| Fed::Nothing)?;
    }
    Ok(())
}

/// Names that are no UTF-8 text: the library that the proved program goes by opens and makes none. A
/// missing one is told as it is by the other.
pub fn names_of_no_text(pair: &mut Pair) -> Tried<()> {
    let name = OsStr::from_bytes(b"\xff\xfe");
    let [fresh, events, report] = ["fresh", "events", "report"].map(OsStr::new);
    let [table, state, list] = [TABLE, STATE, LIST].map(OsStr::new);
    let calls: [&[&OsStr]; 4] = [
        &[report, name],
        &[events, name, list],
        &[events, state, name],
        &[fresh, name, table],
    ];
    ask_all(pair, &calls)?;
    refused_name(pair, "write", &[fresh, table, name], "")?;
    match pair.folders[0].join(name).exists() {
        true => return wrong("a name that is no text", "a file was made"),
        false => pair.each(|folder| fs::write(folder.join(name), ROWS))?,
    }
    let heading = format!("{HEADING}\r\n");
    for (call, output) in calls.into_iter().zip(["", "", &heading, ""]) {
        refused_name(pair, "read", call, output)?;
    }
    Ok(())
}

/// The proved program says that the system refuses the name, and nothing else.
fn refused_name(pair: &Pair, what: &str, call: &[&OsStr], output: &str) -> Tried<()> {
    let printed = pair.proved(call)?;
    let said = [
        format!("cannot {what} ").as_bytes(),
        b"\xff\xfe: the system refuses it with error 84\n",
    ]
    .concat();
    let right = printed.output == output.as_bytes() && printed.error == said;
    match right && matches!(printed.end, End::Status(2)) {
        true => Ok(()),
        false => wrong(&format!("{call:?}"), &whole_print(&printed)),
    }
}
