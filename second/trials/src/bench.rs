//! Runs the proved programs and the second ones over the same files.

use std::ffi::OsString;
use std::fs;
use std::io::{Error, Result};
use std::path::{Path, PathBuf};
use std::process::Command;

use crate::form::answer;
use crate::{Asked, CaptureFile, Fed, Files, Printed, Program, PROGRAMS};

/// What the proved program did, and the second one, when both were asked this.
pub struct Both {
    pub asked: Asked,
    pub printed: [Printed; 2],
}

impl Both {
    /// The answer on which they agree to the byte and in the status; nothing if they do not, or if
    /// it is not printed as it must be.
    pub fn agreed(&self) -> Option<usize> {
        let [proved, second] = &self.printed;
        let alike = proved.output == second.output && proved.end == second.end;
        match alike && proved.error == self.renamed(&second.error) {
            true => answer(&self.asked, proved),
            false => None,
        }
    }

    /// What the second program says; where that is how it is called, with the proved one's name.
    fn renamed(&self, said: &[u8]) -> Vec<u8> {
        let called = self.asked.program.names();
        let [name, other] = called.map(|name| format!(", {name} TABLE EVENTS\n").into_bytes());
        match said.strip_suffix(&other[..]) {
            Some(before) => [before, &name].concat(),
            None => said.to_vec(),
        }
    }
}

/// The folders of the programs, and one for the files they are run over.
pub struct Bench {
    programs: [PathBuf; 2],
    folder: PathBuf,
}

impl Bench {
    /// The proved programs are in the first folder, the second ones in the other.
    pub fn new(programs: &[PathBuf; 2], folder: &Path) -> Result<Bench> {
        fs::create_dir_all(folder)?;
        Ok(Bench {
            programs: programs.clone(),
            folder: folder.to_path_buf(),
        })
    }

    pub fn run(&self, files: &Files) -> Result<Both> {
        self.over(self.lay(files)?)
    }

    /// Puts the files into the folder. Gives what is asked with them.
    pub fn lay(&self, files: &Files) -> Result<Asked> {
        let laid = |name: &str, bytes: &Option<Vec<u8>>| {
            let path = self.folder.join(name);
            put(&path, bytes).map(|()| path.into_os_string())
        };
        let table = laid("table.csv", &files.table)?;
        let program = files.program();
        let arguments = match (&files.capture, &files.sheet) {
            (Some(CaptureFile { bytes, numbers }), _) => {
                let capture = laid("capture.pcap", bytes)?;
                [&[capture, table], &numbers[..]].concat()
            }
            (None, Some(rest)) => [&[table], &rest[..]].concat(),
            (None, None) if program == Program::Table => vec![table],
            (None, None) => vec![table, laid("events.csv", &files.events)?],
        };
        Ok(Asked {
            program,
            arguments,
            fed: Fed::Nothing,
        })
    }

    /// Both programs when they are asked this.
    pub fn over(&self, asked: Asked) -> Result<Both> {
        let [proved, second] = self.paths(asked.program);
        let printed = |path| {
            let mut command = Command::new(path);
            Printed::by(command.args(&asked.arguments), &asked.fed, &self.folder)
        };
        let printed = [printed(proved)?, printed(second)?];
        Ok(Both { asked, printed })
    }

    pub fn paths(&self, program: Program) -> [PathBuf; 2] {
        let [proved, second] = program.names();
        [self.programs[0].join(proved), self.programs[1].join(second)]
    }
}

/// The two folders of programs, if all the programs are there. Their paths hold in any folder.
pub fn folders(proved: &OsString, second: &OsString) -> Result<[PathBuf; 2]> {
    let folders = [proved, second].map(|folder| {
        let missing = |_| Error::other(format!("{} is not there", folder.display()));
        fs::canonicalize(folder).map_err(missing)
    });
    let [proved, second] = folders;
    let folders = [proved?, second?];
    for program in PROGRAMS {
        for (folder, name) in folders.iter().zip(program.names()) {
            let path = folder.join(name);
            if !path.is_file() {
                return Err(Error::other(format!("{} is not there", path.display())));
            }
        }
    }
    Ok(folders)
}

fn put(path: &Path, bytes: &Option<Vec<u8>>) -> Result<()> {
    match bytes {
        Some(bytes) => fs::write(path, bytes),
        None if path.exists() => fs::remove_file(path),
        None => Ok(()),
    }
}

#[cfg(test)]
mod tests {
    use super::*;
    use crate::{End, Folder};

    fn both(arguments: &[&str], printed: [&Printed; 2]) -> Both {
        Both {
            asked: Asked {
                program: Program::Replay,
                arguments: arguments.iter().map(OsString::from).collect(),
                fed: Fed::Nothing,
            },
            printed: printed.map(Printed::clone),
        }
    }

    fn agreed(printed: [&Printed; 2]) -> Option<usize> {
        both(&["t", "e"], printed).agreed()
    }

    fn refused(number: u32) -> Printed {
        Printed {
            output: format!("answer,place,second,count\r\n{number},0,0,0\r\n").into_bytes(),
            error: format!("refused {number} in t: it is so; mend it.\n").into_bytes(),
            end: End::Status(1),
        }
    }

    #[test]
    fn programs_agree_only_on_an_answer_that_both_print() {
        let said = refused(1);
        let nothing = Printed {
            output: Vec::new(),
            error: Vec::new(),
            end: End::Status(1),
        };
        assert_eq!(agreed([&said, &said]), Some(1));
        assert_eq!(agreed([&said, &nothing]), None);
        assert_eq!(agreed([&nothing, &nothing]), None);
        assert_eq!(agreed([&said, &refused(4)]), None);
    }

    #[test]
    fn programs_agree_only_with_the_right_end() {
        let said = refused(1);
        for end in [End::Killed, End::Late, End::Status(0), End::Status(2)] {
            let other = Printed {
                end,
                ..said.clone()
            };
            assert_eq!(agreed([&other, &other]), None);
            assert_eq!(agreed([&said, &other]), None);
            assert_eq!(agreed([&other, &said]), None);
        }
    }

    #[test]
    fn programs_agree_only_on_the_same_sentence_on_standard_error() {
        let said = refused(1);
        let other = Printed {
            error: b"refused 1 in t: it is other; mend it.\n".to_vec(),
            ..said.clone()
        };
        assert_eq!(agreed([&other, &other]), Some(1));
        assert_eq!(agreed([&said, &other]), None);
        let without_file = Printed {
            error: b"refused 1: it is so; mend it.\n".to_vec(),
            ..said.clone()
        };
        assert_eq!(agreed([&without_file, &without_file]), None);
        let channel = Printed {
            output: [&said.output[..], &said.error].concat(),
            error: Vec::new(),
            ..said
        };
        assert_eq!(agreed([&channel, &channel]), None);
    }

    #[test]
    fn each_program_says_how_it_is_called_itself() {
        let usage = |name: &str| Printed {
            output: Vec::new(),
            error: format!(
                "cannot read: give a class table and an event list, {name} TABLE EVENTS\n"
            )
            .into_bytes(),
            end: End::Status(2),
        };
        let [proved, second] = ["replay", "second"].map(usage);
        let agreed = |printed| both(&["t"], printed).agreed();
        assert!(agreed([&proved, &second]).is_some());
        assert_eq!(agreed([&second, &second]), None);
        assert_eq!(agreed([&second, &proved]), None);
    }

    #[test]
    fn files_are_laid_for_their_program() {
        let folder = Folder::fresh("bench").expect("a folder can be made");
        let programs = [folder.path().to_path_buf(), folder.path().to_path_buf()];
        let bench = Bench::new(&programs, folder.path()).expect("a bench can be made");
        let table = Files {
            table: Some(b"t".to_vec()),
            ..Files::default()
        };
        let sheet = Files {
            sheet: Some(vec!["1".into()]),
            ..table.clone()
        };
        let capture = Files {
            capture: Some(CaptureFile::default()),
            ..table.clone()
        };
        let alone = Files {
            alone: true,
            ..table.clone()
        };
        let expected: [(Files, Program, &[&str]); 4] = [
            (table, Program::Replay, &["table.csv", "events.csv"]),
            (sheet, Program::Promise, &["table.csv", "1"]),
            (capture, Program::Capture, &["capture.pcap", "table.csv"]),
            (alone, Program::Table, &["table.csv"]),
        ];
        for (files, program, names) in expected {
            let asked = bench.lay(&files).expect("they can be laid");
            let name = |argument: &OsString| {
                let path = Path::new(argument).file_name();
                path.map(|name| name.to_string_lossy().into_owned())
            };
            let laid: Vec<String> = asked.arguments.iter().filter_map(name).collect();
            assert_eq!(asked.program, program);
            assert_eq!(laid, names);
        }
    }
}
