//! The program `hostile PROVED SECOND`: two folders' programs over damaged files and arguments.
#![forbid(unsafe_code)]

mod capture_files;
mod captures;
mod drawn;
mod equal;
mod faulty;
mod identifiers;
mod long;
mod plan;
mod records;
mod rounding;
mod shares;
mod standard;
mod streams;
mod texts;

use std::ffi::OsString;
use std::fs::{self, File, Permissions};
use std::io::{Error, Result};
use std::os::unix::fs::{symlink, PermissionsExt};
use std::path::{Path, PathBuf};
use std::process::ExitCode;

use plan::{trials, Input, Trial, Wanted};
use trials::{counted, folders, Asked, Bench, Both, Fed, Folder, Printed, ANSWER, STANDARD};

/// Bytes of each stream that are shown of a run that goes wrong.
const SHOWN: usize = 400;

fn main() -> ExitCode {
    counted("hostile", hostile)
}

fn hostile(arguments: &[OsString]) -> Result<bool> {
    let [proved, second] = arguments else {
        let said = "give the folders of the programs: hostile PROVED SECOND";
        return Err(Error::other(said));
    };
    let folder = Folder::fresh("hostile")?;
    let bench = Bench::new(&folders(proved, second)?, folder.path())?;
    // Programs are run in the folder, and must not take this file for standard input.
    fs::write(folder.path().join(STANDARD), plan::NO_TABLE)?;
    let (mut passed, mut failed) = (0, 0);
    for trial in trials() {
        match outcome(&trial, &bench, folder.path())? {
            Outcome::Passed => passed += 1,
            Outcome::Skipped => {
                println!("{trial}: skipped, since this user may read any file");
            }
            Outcome::Failed(both) => {
                failed += 1;
                show(&trial, &both);
            }
        }
    }
    let (wrong, count) = streams::failures(&bench, folder.path())?;
    wrong.iter().for_each(|name| println!("FAILED: {name}"));
    passed += count - wrong.len();
    failed += wrong.len();
    println!("{passed} passed, {failed} failed");
    Ok(failed == 0)
}

enum Outcome {
    Passed,
    Skipped,
    Failed(Both),
}

fn outcome(trial: &Trial, bench: &Bench, folder: &Path) -> Result<Outcome> {
    let (mut arguments, mut fed) = (Vec::new(), Fed::Nothing);
    for (place, input) in trial.inputs.iter().enumerate() {
        match argument(input, &folder.join(format!("input-{place}")), &mut fed)? {
            Some(argument) => arguments.push(argument),
            None => return Ok(Outcome::Skipped),
        }
    }
    let both = bench.over(Asked {
        program: trial.program,
        arguments,
        fed,
    })?;
    let right = both.agreed().is_some() && is_answered(trial, &both.printed[0]);
    Ok(match right {
        true => Outcome::Passed,
        false => Outcome::Failed(both),
    })
}

/// The argument for an input, its file being at this path; nothing if it cannot be had. Where it is
/// standard input, that becomes what it is to be.
fn argument(input: &Input, path: &Path, fed: &mut Fed) -> Result<Option<OsString>> {
    let mut path = path.to_path_buf();
    match input {
        Input::Plain(argument) => return Ok(Some(argument.clone())),
        Input::Standard(file) => {
            let file = argument(file, &path, fed)?;
            *fed = file.map_or(Fed::Nothing, |file| Fed::File(file.into()));
            return Ok(Some(STANDARD.into()));
        }
        Input::Piped(bytes) => {
            *fed = Fed::Pipe(bytes.clone());
            return Ok(Some(STANDARD.into()));
        }
        Input::Bytes(bytes) => fs::write(&path, bytes)?,
        Input::Named(name, bytes) => {
            path.set_file_name(name);
            fs::write(&path, bytes)?;
        }
        Input::Folder => {
            path.set_file_name("folder");
            fs::create_dir_all(&path)?;
        }
        Input::Circle => return Ok(Some(circle(path)?)),
        Input::Unreadable => return unreadable(path),
    }
    Ok(Some(path.into_os_string()))
}

/// A link to itself.
fn circle(mut path: PathBuf) -> Result<OsString> {
    path.set_file_name("circle");
    if !path.is_symlink() {
        symlink(&path, &path)?;
    }
    Ok(path.into_os_string())
}

fn unreadable(mut path: PathBuf) -> Result<Option<OsString>> {
    path.set_file_name("unreadable");
    fs::write(&path, plan::TABLE)?;
    // It may still be written, so that the next trial can.
    fs::set_permissions(&path, Permissions::from_mode(0o200))?;
    Ok(File::open(&path).is_err().then(|| path.into_os_string()))
}

/// Whether what is printed is what the trial says, if it says something.
fn is_answered(trial: &Trial, printed: &Printed) -> bool {
    trial.wanted.as_ref().is_none_or(|wanted| match wanted {
        Wanted::Answer([number, place]) => {
            let wanted = format!("{ANSWER}\r\n{number},{place},0,0\r\n");
            printed.output == wanted.as_bytes()
        }
        Wanted::Lines(lines) => {
            let wanted: String = lines.iter().map(|line| format!("{line}\r\n")).collect();
            printed.output == wanted.as_bytes()
        }
        Wanted::Text(output, error) => {
            printed.output == output.as_bytes() && printed.error == error.as_bytes()
        }
        Wanted::End(end) => printed.error.ends_with(end.as_bytes()),
    })
}

fn show(trial: &Trial, both: &Both) {
    println!("FAILED: {trial}");
    for (name, printed) in ["proved", "second"].iter().zip(&both.printed) {
        println!("--- {name}: {:?}", printed.end);
        let Printed { output, error, .. } = printed;
        for stream in [output, error] {
            let shown = &stream[..stream.len().min(SHOWN)];
            println!("{} ({} bytes)", shown.escape_ascii(), stream.len());
        }
    }
}

#[cfg(test)]
mod tests {
    use super::*;

    /// The argument for an input, and what standard input is then.
    fn laid(input: Input) -> (OsString, Fed, Folder) {
        let folder = Folder::fresh("inputs").expect("a folder can be made");
        let mut fed = Fed::Nothing;
        let argument = argument(&input, &folder.path().join("input-0"), &mut fed);
        let argument = argument.expect("it can be laid").expect("it can be had");
        (argument, fed, folder)
    }

    #[test]
    fn inputs_become_arguments() {
        let (argument, fed, _) = laid(Input::Plain("-".into()));
        assert_eq!((argument, fed), ("-".into(), Fed::Nothing));
        let (argument, fed, _folder) = laid(Input::Bytes(b"x".to_vec()));
        assert!(fs::read(&argument).is_ok_and(|bytes| bytes == b"x") && fed == Fed::Nothing);
        let (argument, _, _folder) = laid(Input::Named("-", b"x".to_vec()));
        assert!(Path::new(&argument).is_absolute() && fs::read(&argument).is_ok());
        let (argument, _, _folder) = laid(Input::Folder);
        assert!(Path::new(&argument).is_dir());
        let (argument, _, _folder) = laid(Input::Circle);
        let refused = File::open(argument).expect_err("it goes nowhere");
        assert_eq!(refused.raw_os_error(), Some(40));
    }

    #[test]
    fn standard_input_is_a_file_a_folder_or_a_pipe() {
        let (argument, fed, folder) = laid(Input::Standard(Box::new(plan::bytes("x"))));
        assert_eq!(fed, Fed::File(folder.path().join("input-0")));
        assert_eq!(argument, STANDARD);
        let (argument, fed, folder) = laid(Input::Standard(Box::new(Input::Folder)));
        assert_eq!(fed, Fed::File(folder.path().join("folder")));
        assert_eq!(argument, STANDARD);
        let (argument, fed, _) = laid(Input::Piped(b"x".to_vec()));
        assert_eq!((argument, fed), (STANDARD.into(), Fed::Pipe(b"x".to_vec())));
    }

    #[test]
    fn what_is_wanted_is_looked_for_on_its_channel() {
        let answered = |wanted: &Wanted, output: &str, error: &str| {
            let trial = Trial {
                name: String::new(),
                program: trials::Program::Table,
                inputs: Vec::new(),
                wanted: Some(wanted.clone()),
            };
            let printed = Printed {
                output: output.as_bytes().to_vec(),
                error: error.as_bytes().to_vec(),
                end: trials::End::Status(0),
            };
            is_answered(&trial, &printed)
        };
        let end = Wanted::End(": why\n".to_string());
        assert!(answered(&end, "", "cannot read x: why\n"));
        assert!(!answered(&end, "cannot read x: why\n", ""));
        let answer = Wanted::Answer([4, 2]);
        let text = format!("{ANSWER}\r\n4,2,0,0\r\n");
        assert!(answered(&answer, &text, "x") && !answered(&answer, "", &text));
        let longer = format!("{text}4,3,0,0\r\n");
        assert!(!answered(&answer, &longer, "x"));
        let both = Wanted::Text("o".to_string(), "e".to_string());
        assert!(answered(&both, "o", "e") && !answered(&both, "e", "o"));
        assert!(!answered(&both, "o", "") && !answered(&both, "o", "ee"));
    }
}
