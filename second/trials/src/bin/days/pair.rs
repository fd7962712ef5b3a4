//! Both programs side by side, each in a folder of its own whose files have the same names.

use std::collections::BTreeMap;
use std::ffi::OsStr;
use std::fs;
use std::io::{Error, Result};
use std::path::{Path, PathBuf};
use std::process::Command;
use std::time::Duration;

use crate::shown::{differing_files, differing_prints};
use crate::tally::Tally;
use trials::{End, Fed, Printed};

/// Far more than a list of any length here takes.
const MOST_TIME: Duration = Duration::from_secs(60);

/// The proved program and the second one, and the proved replayer.
#[derive(Clone)]
pub struct Programs {
    pub live: [PathBuf; 2],
    pub replay: PathBuf,
}

/// Why a trial is not passed.
pub enum Trouble {
    /// The programs differ, or do something else than they must.
    Wrong(String),
    /// The trial cannot be made.
    Failed(Error),
}

impl From<Error> for Trouble {
    fn from(error: Error) -> Trouble {
        Trouble::Failed(error)
    }
}

pub type Tried<T> = std::result::Result<T, Trouble>;

/// What a folder has in it, by path; nothing for what is no file that can be read.
pub type Contents = BTreeMap<PathBuf, Option<Vec<u8>>>;

pub struct Pair {
    pub programs: Programs,
    pub folders: [PathBuf; 2],
    pub tally: Tally,
    /// What both folders had in them before the last call.
    pub before: Contents,
}

impl Pair {
    pub fn new(programs: &Programs, folder: &Path) -> Result<Pair> {
        let pair = Pair {
            programs: programs.clone(),
            folders: ["proved", "second"].map(|side| folder.join(side)),
            tally: Tally::default(),
            before: Contents::new(),
        };
        pair.clear()?;
        Ok(pair)
    }

    /// Empties both folders.
    pub fn clear(&self) -> Result<()> {
        for folder in &self.folders {
            if folder.exists() {
                fs::remove_dir_all(folder)?;
            }
            fs::create_dir_all(folder)?;
        }
        Ok(())
    }

    /// Does the same in both folders.
    pub fn each(&self, work: impl Fn(&Path) -> Result<()>) -> Result<()> {
        self.folders.iter().try_for_each(|folder| work(folder))
    }

    /// Puts the same file into both folders.
    pub fn put(&self, name: &str, bytes: &[u8]) -> Result<()> {
        self.each(|folder| fs::write(folder.join(name), bytes))
    }

    /// A file that the proved program has left, and the other too.
    pub fn get(&self, name: &str) -> Result<Vec<u8>> {
        fs::read(self.folders[0].join(name))
    }

    /// What both programs print to these arguments.
    pub fn ask(&mut self, arguments: &[&str]) -> Tried<Printed> {
        self.ask_fed(arguments, |_| Fed::Nothing)
    }

    /// The same with something on standard input, by their folder.
    pub fn ask_fed(&mut self, arguments: &[&str], fed: impl Fn(&Path) -> Fed) -> Tried<Printed> {
        let command = |program: &Path| {
            let mut command = Command::new(program);
            command.args(arguments);
            command
        };
        self.ask_by(command, fed)
    }

    /// The same with the programs started in another way.
    pub fn ask_by(
        &mut self,
        command: impl Fn(&Path) -> Command,
        fed: impl Fn(&Path) -> Fed,
    ) -> Tried<Printed> {
        self.before = contents(&self.folders[0])?;
        let run = |side: usize| {
            let folder = &self.folders[side];
            let mut command = command(&self.programs.live[side]);
            let printed = Printed::within(MOST_TIME, &mut command, &fed(folder), folder);
            printed.map(|printed| (command, printed))
        };
        let ((command, proved), (_, second)) = (run(0)?, run(1)?);
        let asked = format!("{:?} {:?}", command.get_program(), command.get_args());
        self.agree(&asked, proved, second)
    }

    /// What the proved program prints to these arguments, where the other does something else.
    pub fn proved(&self, arguments: &[&OsStr]) -> Result<Printed> {
        let mut command = Command::new(&self.programs.live[0]);
        command.args(arguments);
        Printed::within(MOST_TIME, &mut command, &Fed::Nothing, &self.folders[0])
    }

    /// What both have printed and left, if it is the same.
    pub fn agree(&mut self, asked: &str, proved: Printed, second: Printed) -> Tried<Printed> {
        let ended = matches!(proved.end, End::Status(0..=2));
        if !ended || proved != second {
            return wrong(asked, &differing_prints(&proved, &second));
        }
        self.same_files(asked)?;
        self.tally.add(&proved.output);
        Ok(proved)
    }

    /// Whether both folders have the same in them.
    pub fn same_files(&self, asked: &str) -> Tried<()> {
        let [proved, second] = [contents(&self.folders[0])?, contents(&self.folders[1])?];
        match proved == second {
            true => Ok(()),
            false => wrong(asked, &differing_files(&proved, &second)),
        }
    }
}

/// The trial fails: what was asked, and what came of it.
pub fn wrong<T>(asked: &str, how: &str) -> Tried<T> {
    Err(Trouble::Wrong(format!("{asked}\n{how}")))
}

/// Where what programs print is kept meanwhile.
const STREAMS: [&str; 2] = ["output", "error"];

pub fn contents(folder: &Path) -> Result<Contents> {
    let mut all = Contents::new();
    let mut folders = vec![folder.to_path_buf()];
    while let Some(next) = folders.pop() {
        for entry in fs::read_dir(&next)? {
            let entry = entry?;
            let (path, kind) = (entry.path(), entry.file_type()?);
            let name = path.strip_prefix(folder).unwrap_or(&path).to_path_buf();
            if STREAMS.iter().any(|stream| name == Path::new(stream)) {
                continue;
            }
            if kind.is_dir() {
                folders.push(path.clone());
            }
            all.insert(name, fs::read(&path).ok());
        }
    }
    Ok(all)
}

#[cfg(test)]
mod tests {
    use std::os::unix::fs::PermissionsExt;

    use super::*;
    use trials::Folder;

    /// What becomes of a pair of which each side is such a script.
    fn tried(scripts: [&str; 2]) -> Tried<Printed> {
        let folder = Folder::fresh("pair").expect("a folder can be made");
        let live = [0, 1].map(|side: usize| {
            let path = folder.path().join(format!("live-{side}"));
            let script = format!("#!/bin/sh\n{}\n", scripts[side]);
            fs::write(&path, script).expect("it can be written");
            let mode = fs::Permissions::from_mode(0o700);
            fs::set_permissions(&path, mode).expect("it can be set");
            path
        });
        let replay = PathBuf::new();
        let programs = Programs { live, replay };
        let mut pair = Pair::new(&programs, &folder.path().join("work"))?;
        pair.put("state", b"before")?;
        pair.ask(&["report", "state"])
    }

    fn is_wrong(scripts: [&str; 2]) -> bool {
        matches!(tried(scripts), Err(Trouble::Wrong(_)))
    }

    #[test]
    fn programs_agree_on_what_they_print_and_leave() {
        let right = "echo one; echo two >&2; echo more >>state; mkdir new; exit 1";
        assert!(tried([right, right]).is_ok_and(|printed| printed.end == End::Status(1)));
        for other in [
            "echo one; echo two >&2; echo more >>state; mkdir new; exit 2",
            "echo One; echo two >&2; echo more >>state; mkdir new; exit 1",
            "echo one; echo Two >&2; echo more >>state; mkdir new; exit 1",
            "echo one; echo two >&2; echo less >>state; mkdir new; exit 1",
            "echo one; echo two >&2; echo more >>state; mkdir new; echo >state.new; exit 1",
            "echo one; echo two >&2; echo more >>state; mkdir new; echo >new/x; exit 1",
            "echo one; echo two >&2; echo more >>state; exit 1",
        ] {
            assert!(
                is_wrong([right, other]) && is_wrong([other, right]),
                "{other}"
            );
        }
    }

    #[test]
    fn programs_must_end_as_they_may() {
        assert!(is_wrong(["exit 3", "exit 3"]));
        assert!(is_wrong(["kill -SEGV $$", "kill -SEGV $$"]));
    }
}
