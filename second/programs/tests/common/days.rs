//! Days of the program `live` in a folder of their own, with the names that they have there.

use std::fs;
use std::path::PathBuf;
use std::process::Command;

use super::files::{by, path, table_text, with_cr, Printed, LIVE};
use super::Row;

pub const HEADING: &str = "answer,place,second,count,packet\n";
pub const FRESH: &str = "0,0,0,0,0\n";
pub const UNSOUND: &str = "refused 20 in state: this is no sound state of a live box: it was \
                           damaged or is another file; make a fresh one, or bring back one that \
                           was kept.\n";

/// A folder in which the program is run.
pub struct Day {
    pub folder: PathBuf,
}

impl Day {
    /// An empty folder.
    pub fn empty(test: &str) -> Day {
        let folder = path(test);
        // It may be there from a test before this one.
        let _ = fs::remove_dir_all(&folder);
        fs::create_dir_all(&folder).expect("the test's folder can be made");
        Day { folder }
    }

    /// A folder with a fresh state of these rows.
    pub fn fresh(test: &str, rows: &[Row]) -> Day {
        let day = Day::empty(test);
        day.put("table", table_text(rows).as_bytes());
        let said = day.live(&["fresh", "table", "state"]);
        assert_eq!(said, answers(FRESH, "", 0));
        day
    }

    pub fn put(&self, name: &str, bytes: &[u8]) {
        fs::write(self.folder.join(name), bytes).expect("the test's file can be written");
    }

    pub fn get(&self, name: &str) -> Vec<u8> {
        fs::read(self.folder.join(name)).expect("the test's file can be read")
    }

    /// The names of all files here.
    pub fn names(&self) -> Vec<String> {
        let entries = fs::read_dir(&self.folder).expect("the test's folder can be read");
        let name = |entry: fs::DirEntry| entry.file_name().to_string_lossy().into_owned();
        let mut names: Vec<String> = entries.map(|e| name(e.expect("it can be read"))).collect();
        names.sort();
        names
    }

    pub fn command(&self, arguments: &[&str]) -> Command {
        let mut command = Command::new(LIVE);
        command.args(arguments).current_dir(&self.folder);
        command
    }

    pub fn live(&self, arguments: &[&str]) -> Printed {
        by(&mut self.command(arguments))
    }

    /// What is said to a list with these lines under its heading.
    pub fn events(&self, lines: &str) -> Printed {
        self.list(format!("class,length\n{lines}").as_bytes())
    }

    /// What is said to a list with these bytes.
    pub fn list(&self, bytes: &[u8]) -> Printed {
        self.put("events", bytes);
        self.live(&["events", "state", "events"])
    }
}

/// Answers with their heading, sentences and the status.
pub fn answers(lines: &str, sentences: &str, status: i32) -> Printed {
    Printed {
        output: with_cr(&format!("{HEADING}{lines}")),
        error: sentences.to_string(),
        status: Some(status),
    }
}
