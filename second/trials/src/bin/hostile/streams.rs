//! Runs with a stream that is closed or full.

use std::ffi::OsString;
use std::fs;
use std::io::Result;
use std::path::Path;
use std::process::Command;

use crate::captures::{small, NUMBERS};
use crate::plan::{EVENTS, TABLE};
use trials::captures::LAYOUTS;
use trials::{Bench, End, Fed, Printed, Program, PROGRAMS};

const FULL: &str = "cannot write the results: the disk is full\n";
const CLOSED: &str = "cannot write the results: standard output is closed\n";

/// What is left of a run whose streams are changed.
#[derive(Clone, Copy)]
enum Left {
    All,
    /// All but what is said on standard error.
    Unsaid,
    /// This on standard error and status 2.
    Said(&'static str),
}

use Left::{All, Said, Unsaid};

/// What is done to the streams, what is left, and whether of the second program too: it finds
/// /dev/null where standard output is closed, since Rust's library puts it there.
const CHANGES: [(&str, Left, bool); 9] = [
    ("", All, true),
    (">&-", Said(CLOSED), false),
    (">/dev/full", Said(FULL), true),
    ("2>&-", Unsaid, true),
    ("2>/dev/full", Unsaid, true),
    (">&- 2>&-", Said(""), false),
    (">/dev/full 2>/dev/full", Said(""), true),
    ("<&-", All, true),
    ("<&- >&- 2>&-", Said(""), false),
];

/// Tables that are accepted, refused, and faulty.
const TABLES: [&str; 3] = [TABLE, "identifier,parent,share\r\n1,0,0\r\n", "x\n"];

impl Left {
    fn of(self, usual: &Printed) -> Printed {
        match self {
            All => usual.clone(),
            Unsaid => Printed {
                error: Vec::new(),
                ..usual.clone()
            },
            Said(said) => Printed {
                output: Vec::new(),
                error: said.as_bytes().to_vec(),
                end: End::Status(2),
            },
        }
    }
}

/// The names of the runs that go wrong, and how many runs there are in all.
pub fn failures(bench: &Bench, folder: &Path) -> Result<(Vec<String>, usize)> {
    let pairs = PROGRAMS.into_iter().flat_map(|p| TABLES.map(|t| (p, t)));
    let mut failures = Vec::new();
    let mut count = 0;
    for (program, table) in pairs {
        failures.extend(failures_over(program, table, bench, folder)?);
        count += CHANGES.len();
    }
    Ok((failures, count))
}

/// The failures of one program over one table.
fn failures_over(
    program: Program,
    table: &str,
    bench: &Bench,
    folder: &Path,
) -> Result<Vec<String>> {
    let (first, bytes) = match program {
        Program::Capture => ("stream-capture", small(LAYOUTS[0]).bytes()),
        _ => ("stream-table", table.as_bytes().to_vec()),
    };
    let file = folder.join(first);
    fs::write(&file, &bytes)?;
    let rest = rest(program, table, folder)?;
    let [proved, second] = bench.paths(program);
    let printed = |path: &Path, change| {
        let mut command = changed(path, change);
        Printed::by(command.arg(&file).args(&rest), &Fed::Nothing, folder)
    };
    let usual = printed(&proved, "")?;
    let mut failures = Vec::new();
    for (change, left, too) in CHANGES {
        let left = left.of(&usual);
        let right =
            printed(&proved, change)? == left && (!too || printed(&second, change)? == left);
        // A stream that is closed may have its number given to the first file.
        if !right || fs::read(&file)? != bytes {
            let name = program.names()[0];
            failures.push(format!("{name}, table {table:?}, {change}"));
        }
    }
    Ok(failures)
}

/// The arguments after the first file.
fn rest(program: Program, table: &str, folder: &Path) -> Result<Vec<OsString>> {
    let (second, text) = match program {
        Program::Replay => ("stream-events", EVENTS),
        Program::Promise => return Ok(vec!["1500".into()]),
        Program::Capture => ("stream-table", table),
        Program::Table => return Ok(Vec::new()),
    };
    let file = folder.join(second);
    fs::write(&file, text)?;
    let numbers: &[&str] = match program {
        Program::Capture => &NUMBERS,
        _ => &[],
    };
    let numbers = numbers.iter().map(OsString::from);
    Ok([file.into_os_string()].into_iter().chain(numbers).collect())
}

/// The program, started by a shell that changes its streams.
fn changed(program: &Path, change: &str) -> Command {
    let mut command = Command::new("sh");
    command.args(["-c", &format!("exec \"$@\" {change}"), "sh"]);
    command.arg(program);
    command
}

#[cfg(test)]
mod tests {
    use std::os::unix::fs::PermissionsExt;

    use super::*;
    use trials::Folder;

    /// A program that does what it must.
    const RIGHT: &str = "#!/bin/sh
[ -e /proc/self/fd/1 ] || { echo 'cannot write the results: standard output is closed' >&2; exit 2; }
echo results 2>/dev/null || { echo 'cannot write the results: the disk is full' >&2; exit 2; }
echo sentence >&2
exit 1
";

    /// A bench where each side's programs are such scripts, and its folder.
    fn bench(scripts: [&str; 2]) -> (Bench, Folder) {
        let folder = Folder::fresh("streams").expect("a folder can be made");
        let folders = ["proved", "second"].map(|name| folder.path().join(name));
        for (side, script) in scripts.into_iter().enumerate() {
            fs::create_dir(&folders[side]).expect("it can be made");
            for program in PROGRAMS {
                let path = folders[side].join(program.names()[side]);
                fs::write(&path, script).expect("it can be written");
                let mode = fs::Permissions::from_mode(0o700);
                fs::set_permissions(&path, mode).expect("it can be set");
            }
        }
        let bench = Bench::new(&folders, folder.path()).expect("a bench can be made");
        (bench, folder)
    }

    #[test]
    fn programs_that_do_what_they_must_pass() {
        let (bench, folder) = bench([RIGHT, RIGHT]);
        let (failures, count) = failures(&bench, folder.path()).expect("they can be run");
        assert_eq!(failures, Vec::<String>::new());
        assert_eq!(count, PROGRAMS.len() * TABLES.len() * CHANGES.len());
    }

    #[test]
    fn a_wrong_status_sentence_or_channel_fails_on_either_side() {
        let wrong = |scripts: [&str; 2]| {
            let (bench, folder) = bench(scripts);
            let failures = failures_over(Program::Table, TABLE, &bench, folder.path());
            failures.expect("they can be run").len()
        };
        let changed = |from: &str, to: &str| RIGHT.replace(from, to);
        let full = [
            (changed("full' >&2; exit 2", "full' >&2; exit 1"), 2),
            (changed("the disk is full", "the disk is not full"), 1),
            (changed("full' >&2", "full'"), 1),
        ];
        for (script, changes) in full {
            assert_eq!(wrong([&script, RIGHT]), changes, "{script}");
            assert_eq!(wrong([RIGHT, &script]), changes, "{script}");
        }
        // The second program is not asked about a closed stream.
        let closed = changed("is closed' >&2; exit 2", "is closed' >&2; exit 0");
        assert_eq!(wrong([&closed, RIGHT]), 3);
        assert_eq!(wrong([RIGHT, &closed]), 0);
        // All that leave the usual end.
        let done = changed("exit 1\n", "exit 0\n");
        assert_eq!(wrong([RIGHT, &done]), 4);
    }
}
