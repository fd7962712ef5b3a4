//! All trials: which program is given which files and arguments.

use std::ffi::{OsStr, OsString};
use std::fmt;
use std::os::unix::ffi::OsStrExt;

use crate::captures::hostile_captures;
use crate::drawn::tables_in_full;
use crate::equal::equal_finishes;
use crate::faulty::faulty_tables;
use crate::identifiers::all_identifiers;
use crate::long::longest_packets;
use crate::rounding::close_finishes;
use crate::shares::all_shares;
use crate::standard::standard_inputs;
use crate::texts::{damaged, lengthened, Text};
use trials::{Case, Program};

pub const TABLE: &str =
    "identifier,parent,share\r\n1,0,0\r\n2,1,420\r\n3,1,420\r\n4,2,420\r\n5,2,420\r\n";
pub const EVENTS: &str = "class,length\n4,100\n3,100\n5,100\n0,0\n0,0\n4,1500\n";

/// What a file called like standard input has in it.
pub const NO_TABLE: &str = "x";

/// How sentences on files that cannot be read end.
pub const NO_FILE: &str = ": there is no such file\n";
pub const IS_FOLDER: &str = ": it is a folder\n";

/// Numbers of arguments, some of which no program takes, and one far beyond.
const COUNTS: [usize; 7] = [0, 1, 2, 3, 4, 5, 1000];

#[derive(Clone)]
pub enum Input {
    /// A file with these bytes.
    Bytes(Vec<u8>),
    /// A file with a name of its own, with these bytes.
    Named(&'static str, Vec<u8>),
    /// A folder.
    Folder,
    /// A link to itself, which the system refuses with an error that has no words of its own.
    Circle,
    /// A file that may not be read.
    Unreadable,
    /// An argument as it is.
    Plain(OsString),
    /// Standard input, which is this file or folder.
    Standard(Box<Input>),
    /// Standard input, by a pipe that has these bytes.
    Piped(Vec<u8>),
}

#[derive(Clone)]
pub struct Trial {
    pub name: String,
    pub program: Program,
    pub inputs: Vec<Input>,
    /// What must be printed, where the trial says so.
    pub wanted: Option<Wanted>,
}

#[derive(Clone)]
pub enum Wanted {
    /// A refusal with this number and place.
    Answer([u32; 2]),
    /// These lines, each of which ends in CR LF.
    Lines(Vec<String>),
    /// This on standard output, and this on standard error.
    Text(String, String),
    /// A sentence that ends so.
    End(String),
}

impl fmt::Display for Trial {
    fn fmt(&self, to: &mut fmt::Formatter) -> fmt::Result {
        write!(to, "{}, {}", self.program.names()[0], self.name)
    }
}

/// All programs over the whole set.
pub fn trials() -> Vec<Trial> {
    let mut all = Vec::new();
    for text in tables() {
        all.extend(with_table(&text.name, Input::Bytes(text.bytes)));
    }
    for table in faulty_tables() {
        let wanted = Some(Wanted::Answer(table.answer));
        let trials = with_table(&table.name, Input::Bytes(table.bytes));
        all.extend(wanting(trials.into(), &wanted));
    }
    all.extend(table_before_events());
    for text in lists() {
        all.push(with_events(&text.name, Input::Bytes(text.bytes)));
    }
    for (name, input, wanted) in special() {
        let mut trials = with_table(&name, input.clone()).to_vec();
        trials.push(with_events(&name, input));
        all.extend(wanting(trials, &wanted));
    }
    all.extend(with_lists("equal finishes", equal_finishes()));
    all.extend(with_lists("longest packets", longest_packets()));
    all.extend(with_lists("share", all_shares()));
    all.extend(with_lists("rounding", close_finishes()));
    all.extend(with_lists("identifier", all_identifiers()));
    all.extend(tables_in_full());
    all.extend(numbers_of_arguments());
    all.extend(sheet_arguments());
    all.extend(hostile_captures());
    all.extend(standard_inputs());
    all
}

/// These, of which all must print the same.
pub fn wanting(trials: Vec<Trial>, wanted: &Option<Wanted>) -> impl Iterator<Item = Trial> + '_ {
    trials.into_iter().map(|trial| Trial {
        wanted: wanted.clone(),
        ..trial
    })
}

fn tables() -> Vec<Text> {
    let mut texts = damaged(TABLE);
    texts.extend([257, 100_000].map(|count| lengthened(TABLE, count)));
    texts
}

fn lists() -> Vec<Text> {
    let mut texts = damaged(EVENTS);
    texts.extend([65_536, 65_537, 200_000].map(|count| lengthened(EVENTS, count)));
    texts
}

pub fn bytes(text: &str) -> Input {
    Input::Bytes(text.as_bytes().to_vec())
}

pub fn plain(argument: impl AsRef<OsStr>) -> Input {
    Input::Plain(argument.as_ref().to_os_string())
}

pub fn with_table(name: &str, table: Input) -> [Trial; 3] {
    let trial = |program, rest: Vec<Input>| Trial {
        name: format!("table: {name}"),
        program,
        inputs: [vec![table.clone()], rest].concat(),
        wanted: None,
    };
    [
        trial(Program::Replay, vec![bytes(EVENTS)]),
        trial(Program::Promise, ["1500", "6000", "40"].map(plain).to_vec()),
        trial(Program::Table, Vec::new()),
    ]
}

pub fn with_events(name: &str, events: Input) -> Trial {
    Trial {
        name: format!("events: {name}"),
        program: Program::Replay,
        inputs: vec![bytes(TABLE), events],
        wanted: None,
    }
}

/// Tables that are not there, faulty or refused, each with events that are not there or faulty.
fn table_before_events() -> Vec<Trial> {
    let missing = plain("/no such folder/file.csv");
    let no_file = Some(Wanted::End(NO_FILE.to_string()));
    let tables = [
        ("a missing table", missing.clone(), no_file),
        ("a faulty table", bytes("x"), Some(Wanted::Answer([41, 1]))),
        ("a refused table", bytes(&TABLE[..25]), None),
    ];
    let events = [("missing", missing), ("faulty", bytes("x\n"))];
    let mut all = Vec::new();
    for (name, table, wanted) in tables {
        for (what, events) in &events {
            all.push(Trial {
                name: format!("{name}, {what} events"),
                program: Program::Replay,
                inputs: vec![table.clone(), events.clone()],
                wanted: wanted.clone(),
            });
        }
    }
    all
}

fn with_lists(what: &str, lists: Vec<(String, Case)>) -> impl Iterator<Item = Trial> + '_ {
    lists.into_iter().map(move |(name, case)| Trial {
        name: format!("{what}: {name}"),
        program: Program::Replay,
        inputs: vec![bytes(&case.table_text()), bytes(&case.event_text())],
        wanted: None,
    })
}

/// Odd names, and where there is no such file, what is said of it.
const ODD: [(&str, &[u8], Option<&str>); 11] = [
    ("missing", b"/no such folder/table.csv", Some(NO_FILE)),
    ("below a file", b"/dev/null/table.csv", Some(NO_FILE)),
    (
        "a missing name with spaces",
        b" no such file ",
        Some(NO_FILE),
    ),
    (
        "a missing name of two lines",
        b"no such\nfile",
        Some(NO_FILE),
    ),
    ("no bytes at all", b"/dev/null", None),
    ("an empty name", b"", Some(NO_FILE)),
    ("a name that is not text", b"\xff\xfe\x01", Some(NO_FILE)),
    ("a name like an option", b"--help", Some(NO_FILE)),
    ("two dashes", b"--", Some(NO_FILE)),
    ("a dash and a blank", b"- ", Some(NO_FILE)),
    ("a file called like standard input", b"./-", None),
];

/// Files with odd names, one of them a table with two refusals.
const NAMED: [(&str, &str); 3] = [
    ("a name  with spaces.csv", TABLE),
    ("a name  with spaces.csv", EVENTS),
    (
        "odd \t\n%s\u{e9}.csv",
        "identifier,parent,share\r\n0,0,0\r\n0,1,0\r\n",
    ),
];

/// Files that are none, and names that are odd, with what is said where one cannot be read.
pub fn special() -> Vec<(String, Input, Option<Wanted>)> {
    let odd =
        ODD.map(|(name, bytes, why)| (name.to_string(), plain(OsStr::from_bytes(bytes)), why));
    let long = [256, 5000].map(|length| {
        let name = format!("a name of {length} bytes");
        (
            name,
            plain("n".repeat(length)),
            Some(": its name is too long\n"),
        )
    });
    let named = NAMED.map(|(file, text)| {
        let input = Input::Named(file, text.as_bytes().to_vec());
        let name = format!("{} bytes, called {file:?}", text.len());
        (name, input, None)
    });
    let others = [
        ("a folder", Input::Folder, IS_FOLDER),
        (
            "a link to itself",
            Input::Circle,
            ": the system refuses it with error 40\n",
        ),
        (
            "an unreadable file",
            Input::Unreadable,
            ": this user may not read it\n",
        ),
    ];
    let others = others.map(|(name, input, why)| (name.to_string(), input, Some(why)));
    let all = odd.into_iter().chain(long).chain(named).chain(others);
    let wanted = |why: &str| Wanted::End(why.to_string());
    all.map(|(name, input, why)| (name, input, why.map(wanted)))
        .collect()
}

fn numbers_of_arguments() -> Vec<Trial> {
    let programs = [Program::Replay, Program::Promise, Program::Table];
    let trial = |program, count: usize| Trial {
        name: format!("{count} arguments"),
        program,
        inputs: vec![bytes(TABLE); count],
        wanted: None,
    };
    let all = |program| COUNTS.map(|count| trial(program, count));
    programs.into_iter().flat_map(all).collect()
}

/// Short words that a number may be given as.
const SHORT: [&str; 32] = [
    "",
    "-1",
    "+1",
    " 1",
    "1 ",
    "\t1",
    "1\n",
    "0",
    "00",
    "1",
    "2047",
    "2048",
    "2049",
    "8999",
    "9000",
    "9001",
    "09000",
    "65536",
    "65537",
    "4294967295",
    "4294967296",
    "4294967297",
    "18446744073709551615",
    "18446744073709551616",
    "18446744073709551617",
    "0x10",
    "1e3",
    "1.5",
    "1,5",
    "x",
    "1x",
    "--help",
];

/// What a number may be given as.
pub fn values() -> Vec<OsString> {
    let mut values: Vec<OsString> = SHORT.into_iter().map(OsString::from).collect();
    for count in [1000, 100_000] {
        let zeros = "0".repeat(count);
        values.push("9".repeat(count).into());
        values.push(format!("{zeros}1500").into());
        values.push(format!("{zeros}4294967296").into());
        values.push(zeros.into());
        values.push("x".repeat(count).into());
    }
    values.push(OsStr::from_bytes(b"\xff").to_os_string());
    values
}

/// A value for a reader.
pub fn shown(value: &OsStr) -> String {
    let first: String = value.to_string_lossy().chars().take(24).collect();
    format!("{first:?} of {} bytes", value.len())
}

fn sheet_arguments() -> Vec<Trial> {
    let trial = |name: &str, value: &OsStr, rest: Vec<Input>| Trial {
        name: format!("{name} {}", shown(value)),
        program: Program::Promise,
        inputs: [vec![bytes(TABLE)], rest].concat(),
        wanted: None,
    };
    let mut all = Vec::new();
    for value in values() {
        all.push(trial("LARGEST", &value, vec![plain(&value)]));
        all.push(trial("OWN", &value, vec![plain("1500"), plain(&value)]));
        let last = vec![plain("1500"), plain("6000"), plain(&value)];
        all.push(trial("PACKETS", &value, last));
        let both = vec![plain("1500"), plain(&value), plain(&value)];
        all.push(trial("OWN and PACKETS", &value, both));
        let all_three = vec![plain(&value); 3];
        all.push(trial("LARGEST, OWN and PACKETS", &value, all_three));
    }
    all
}
