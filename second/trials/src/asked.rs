//! What a program is asked, and how it then calls its files in a sentence.

use std::ffi::OsString;
use std::ops::RangeInclusive;
use std::os::unix::ffi::OsStrExt;

use crate::Fed;

/// Which of the programs is run.
#[derive(Clone, Copy, Debug, PartialEq, Eq)]
pub enum Program {
    Replay,
    Promise,
    Capture,
    Table,
}

pub const PROGRAMS: [Program; 4] = [
    Program::Replay,
    Program::Promise,
    Program::Capture,
    Program::Table,
];

/// The argument that is standard input and no file.
pub const STANDARD: &str = "-";

/// What is said where both files are standard input.
pub const TWICE: &str = "standard input is named twice; give one of the two as a file";

impl Program {
    /// What the proved one is called, and the second one.
    pub fn names(self) -> [&'static str; 2] {
        match self {
            Program::Replay => ["replay", "second"],
            Program::Promise => ["promise", "promise"],
            Program::Capture => ["capture", "capture"],
            Program::Table => ["table", "table"],
        }
    }

    /// What the proved one says where it is given too few arguments or too many.
    fn usage(self) -> &'static str {
        match self {
            Program::Replay => "give a class table and an event list, replay TABLE EVENTS",
            Program::Promise => {
                "give a class table and the largest packet, promise TABLE LARGEST [OWN [PACKETS]]"
            }
            Program::Capture => {
                "give a capture, a class table, three classes and a rate, \
                 capture CAPTURE TABLE FIRST SECOND THIRD RATE"
            }
            Program::Table => "give a class table, table TABLE",
        }
    }

    /// How many of its arguments are files, which come first.
    fn files(self) -> usize {
        match self {
            Program::Replay | Program::Capture => 2,
            Program::Promise | Program::Table => 1,
        }
    }

    /// What those after the files are called.
    fn numbers(self) -> &'static [&'static str] {
        match self {
            Program::Replay | Program::Table => &[],
            Program::Promise => &["LARGEST", "OWN", "PACKETS"],
            Program::Capture => &["FIRST", "SECOND", "THIRD", "RATE"],
        }
    }

    /// How many arguments it takes.
    fn counts(self) -> RangeInclusive<usize> {
        let most = self.files() + self.numbers().len();
        match self {
            Program::Promise => 2..=most,
            _ => most..=most,
        }
    }

    /// The file that a refusal with this number is of, if it is of one.
    fn refused(self, number: u32) -> Option<usize> {
        match (self, number) {
            (_, 3) | (Program::Capture, 30) => None,
            (Program::Replay, 2 | 11..=14) => Some(1),
            (Program::Capture, 2 | 11..=13 | 31..=38) => Some(0),
            (Program::Capture, _) => Some(1),
            _ => Some(0),
        }
    }
}

/// A program with its arguments and its standard input.
#[derive(Clone, Debug, PartialEq, Eq)]
pub struct Asked {
    pub program: Program,
    pub arguments: Vec<OsString>,
    pub fed: Fed,
}

impl Asked {
    /// What a sentence calls the file that is this argument.
    fn called(&self, place: usize) -> &[u8] {
        match self.arguments.get(place) {
            Some(argument) if argument == STANDARD => b"standard input",
            Some(argument) => argument.as_bytes(),
            None => b"",
        }
    }

    /// What the sentence of a refusal with this number begins with.
    pub fn refused(&self, number: u32) -> Vec<u8> {
        let begins = format!("refused {number}").into_bytes();
        match self.program.refused(number) {
            Some(file) => [&begins, &b" in "[..], self.called(file), b": "].concat(),
            None => [&begins, &b": "[..]].concat(),
        }
    }

    /// What must be said of the call where it is wrong, before anything is read.
    pub fn miscalled(&self) -> Option<&'static str> {
        let counts = self.program.counts();
        let files = self.program.files();
        match counts.contains(&self.arguments.len()) {
            false => Some(self.program.usage()),
            true if files == 2 && self.arguments[..files].iter().all(|a| a == STANDARD) => {
                Some(TWICE)
            }
            true => None,
        }
    }

    /// Whether this may be said of what cannot be read: what must be said of the call, or the name of
    /// a file or of a number, and why.
    pub fn is_unread(&self, said: &[u8]) -> bool {
        let Some(rest) = said.strip_prefix(b"cannot read") else {
            return false;
        };
        if let Some(why) = self.miscalled() {
            return rest == format!(": {why}\n").as_bytes();
        }
        let files = 0..self.program.files();
        let numbers = self.program.numbers().iter().map(|name| name.as_bytes());
        let mut names = files.map(|file| self.called(file)).chain(numbers);
        names.any(|name| {
            let named = [b" ", name].concat();
            rest.strip_prefix(&named[..]).is_some_and(is_reason)
        })
    }
}

/// A line's number or none, and one line that says why.
fn is_reason(rest: &[u8]) -> bool {
    let Ok(rest) = std::str::from_utf8(rest) else {
        return false;
    };
    let rest = match rest.strip_prefix(", line ") {
        Some(line) => line.trim_start_matches(|digit: char| digit.is_ascii_digit()),
        None => rest,
    };
    let why = rest.strip_prefix(": ").and_then(|r| r.strip_suffix('\n'));
    why.is_some_and(|why| !why.is_empty() && !why.contains('\n'))
}

#[cfg(test)]
mod tests {
    use super::*;

    fn asked(program: Program, arguments: &[&str]) -> Asked {
        Asked {
            program,
            arguments: arguments.iter().map(OsString::from).collect(),
            fed: Fed::Nothing,
        }
    }

    fn begins(asked: &Asked, number: u32) -> String {
        String::from_utf8(asked.refused(number)).expect("it is text")
    }

    #[test]
    fn each_refusal_names_its_file() {
        let replay = asked(Program::Replay, &["t", "e"]);
        for number in [2, 11, 12, 13, 14] {
            assert_eq!(begins(&replay, number), format!("refused {number} in e: "));
        }
        for number in [1, 4, 10, 15, 40, 47] {
            assert_eq!(begins(&replay, number), format!("refused {number} in t: "));
        }
        let capture = asked(Program::Capture, &["c", "t", "1", "2", "3", "4"]);
        for number in [2, 11, 12, 13, 31, 38] {
            assert_eq!(begins(&capture, number), format!("refused {number} in c: "));
        }
        for number in [1, 4, 10, 15, 40, 47] {
            assert_eq!(begins(&capture, number), format!("refused {number} in t: "));
        }
        assert_eq!(begins(&capture, 30), "refused 30: ");
        for program in [Program::Promise, Program::Table] {
            assert_eq!(begins(&asked(program, &["t", "1"]), 9), "refused 9 in t: ");
        }
        for program in PROGRAMS {
            assert_eq!(begins(&asked(program, &["t", "e"]), 3), "refused 3: ");
        }
    }

    #[test]
    fn standard_input_is_called_so_and_a_file_of_its_name_is_not() {
        let replay = asked(Program::Replay, &["-", "./-"]);
        assert_eq!(begins(&replay, 5), "refused 5 in standard input: ");
        assert_eq!(begins(&replay, 11), "refused 11 in ./-: ");
    }

    #[test]
    fn what_cannot_be_read_is_a_file_or_a_number() {
        let promise = asked(Program::Promise, &["a b", "1"]);
        for said in [
            "cannot read a b: it is a folder\n",
            "cannot read a b, line 3: 2 numbers are wanted\n",
            "cannot read LARGEST: it is not a decimal number\n",
            "cannot read PACKETS: it is over 4294967295\n",
        ] {
            assert!(promise.is_unread(said.as_bytes()), "{said}");
        }
        for said in [
            "",
            "cannot read: it is a folder\n",
            "cannot read a b: it is a folder",
            "cannot read a b: it is a folder\ncannot read a b: it is a folder\n",
            "cannot read a b: \n",
            "cannot read a b it is a folder\n",
            "cannot read a: it is a folder\n",
            "cannot read standard input: it is a folder\n",
            "cannot read FIRST: it is not a decimal number\n",
            "cannot write the results: the disk is full\n",
            "promise: cannot read a b: it is a folder\n",
        ] {
            assert!(!promise.is_unread(said.as_bytes()), "{said}");
        }
    }

    #[test]
    fn how_a_program_is_called_is_said_where_it_was_not_called_so() {
        let counts = [
            (Program::Replay, 2..=2),
            (Program::Promise, 2..=4),
            (Program::Capture, 6..=6),
            (Program::Table, 1..=1),
        ];
        for (program, right) in counts {
            let usage = format!("cannot read: {}\n", program.usage());
            let other = "cannot read x: it is a folder\n";
            for count in 0..9 {
                let asked = asked(program, &vec!["x"; count]);
                let wrong = !right.contains(&count);
                assert_eq!(asked.is_unread(usage.as_bytes()), wrong);
                assert_eq!(asked.is_unread(other.as_bytes()), !wrong);
            }
        }
    }

    #[test]
    fn that_standard_input_is_named_twice_is_said_where_it_is() {
        let said = format!("cannot read: {TWICE}\n");
        let twice = asked(Program::Replay, &["-", "-"]);
        assert!(twice.is_unread(said.as_bytes()));
        assert!(!twice.is_unread(b"cannot read standard input: it is a folder\n"));
        for arguments in [&["-", "./-"][..], &["-", "-", "-"], &["-"]] {
            let asked = asked(Program::Replay, arguments);
            assert!(!asked.is_unread(said.as_bytes()));
        }
        let capture = asked(Program::Capture, &["-", "-", "x", "-", "", "0"]);
        assert!(capture.is_unread(said.as_bytes()));
        let promise = asked(Program::Promise, &["-", "-"]);
        assert!(!promise.is_unread(said.as_bytes()));
    }
}
