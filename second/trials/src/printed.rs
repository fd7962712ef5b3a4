//! What a program prints and how it ends, within a time limit.

use std::fs::{self, File};
use std::io::{Error, Result, Write};
use std::path::{Path, PathBuf};
use std::process::{Child, ChildStdin, Command, Stdio};
use std::thread;
use std::time::{Duration, Instant};

/// Far more than any run takes; a program that is still running then is ended.
const MOST_TIME: Duration = Duration::from_secs(10);

/// How often a running program is looked at.
const PAUSE: Duration = Duration::from_micros(200);

/// So many pieces a pipe's bytes come in at most.
const PIECES: usize = 20;

#[derive(Clone, Copy, Debug, PartialEq, Eq)]
pub enum End {
    Status(i32),
    /// By a signal.
    Killed,
    /// Not by itself.
    Late,
}

/// What a program finds on standard input.
#[derive(Clone, Debug, Default, PartialEq, Eq)]
pub enum Fed {
    #[default]
    Nothing,
    /// This file, or this folder.
    File(PathBuf),
    /// These bytes by a pipe, piece by piece.
    Pipe(Vec<u8>),
}

impl Fed {
    fn stream(&self) -> Result<Stdio> {
        Ok(match self {
            Fed::Nothing => Stdio::null(),
            Fed::File(path) => File::open(path)?.into(),
            Fed::Pipe(_) => Stdio::piped(),
        })
    }
}

/// What one program did.
#[derive(Clone, Debug, PartialEq, Eq)]
pub struct Printed {
    pub output: Vec<u8>,
    pub error: Vec<u8>,
    pub end: End,
}

impl Printed {
    /// Runs the command in the folder; what it prints is kept in two files there meanwhile.
    pub fn by(command: &mut Command, fed: &Fed, folder: &Path) -> Result<Printed> {
        Printed::within(MOST_TIME, command, fed, folder)
    }

    /// The same with another limit on the time.
    pub fn within(
        most: Duration,
        command: &mut Command,
        fed: &Fed,
        folder: &Path,
    ) -> Result<Printed> {
        let [output, error] = ["output", "error"].map(|name| folder.join(name));
        command.current_dir(folder);
        command.stdin(fed.stream()?);
        command.stdout(File::create(&output)?);
        command.stderr(File::create(&error)?);
        let mut child = command.spawn().map_err(|error| {
            let program = command.get_program().display();
            Error::other(format!("cannot start {program}: {error}"))
        })?;
        if let (Fed::Pipe(bytes), Some(pipe)) = (fed, child.stdin.take()) {
            let bytes = bytes.clone();
            thread::spawn(move || feed(pipe, &bytes));
        }
        let end = wait(&mut child, most)?;
        Ok(Printed {
            output: fs::read(output)?,
            error: fs::read(error)?,
            end,
        })
    }
}

/// Waits after each piece, so that a reader finds part of the bytes at a time; ends where it leaves.
fn feed(mut pipe: ChildStdin, bytes: &[u8]) {
    for piece in bytes.chunks(bytes.len().div_ceil(PIECES).max(1)) {
        if pipe.write_all(piece).is_err() {
            return;
        }
        thread::sleep(PAUSE);
    }
}

fn wait(child: &mut Child, most: Duration) -> Result<End> {
    let begun = Instant::now();
    loop {
        if let Some(status) = child.try_wait()? {
            return Ok(status.code().map_or(End::Killed, End::Status));
        }
        if begun.elapsed() > most {
            child.kill()?;
            child.wait()?;
            return Ok(End::Late);
        }
        thread::sleep(PAUSE);
    }
}

#[cfg(test)]
mod tests {
    use super::*;
    use crate::Folder;

    fn fed(script: &str, fed: impl Fn(&Path) -> Fed) -> Printed {
        let folder = Folder::fresh("printed").expect("a folder can be made");
        let mut command = Command::new("sh");
        let fed = fed(folder.path());
        let printed = Printed::by(command.args(["-c", script]), &fed, folder.path());
        printed.expect("the script can be run")
    }

    fn printed(script: &str) -> Printed {
        fed(script, |_| Fed::Nothing)
    }

    #[test]
    fn streams_and_status_are_told_apart() {
        let expected = Printed {
            output: b"one\n".to_vec(),
            error: b"two\n".to_vec(),
            end: End::Status(3),
        };
        assert_eq!(printed("echo one; echo two >&2; exit 3"), expected);
    }

    #[test]
    fn standard_input_is_nothing_or_a_file_or_a_pipe_or_a_folder() {
        assert_eq!(printed("cat").output, b"");
        let file = |folder: &Path| {
            fs::write(folder.join("file"), "some\0bytes").expect("it can be written");
            Fed::File(folder.join("file"))
        };
        assert_eq!(fed("cat", file).output, b"some\0bytes");
        let long: Vec<u8> = (0..200_000).map(|n| n as u8).collect();
        for bytes in [&b""[..], b"1", b"12\n34", &long] {
            assert_eq!(fed("cat", |_| Fed::Pipe(bytes.to_vec())).output, bytes);
        }
        assert_eq!(fed(":", |_| Fed::Pipe(long.clone())).end, End::Status(0));
        let folder = fed("cat", |folder| Fed::File(folder.to_path_buf()));
        assert!(folder.output.is_empty() && folder.end == End::Status(1));
    }

    #[test]
    fn a_program_is_run_in_the_folder() {
        let written = |folder: &Path| {
            fs::write(folder.join("-"), "here").expect("it can be written");
            Fed::Nothing
        };
        assert_eq!(fed("cat ./-", written).output, b"here");
    }

    #[test]
    fn a_signal_is_seen() {
        assert_eq!(printed("kill -SEGV $$").end, End::Killed);
    }

    #[test]
    fn a_program_that_does_not_end_is_ended() {
        let mut child = Command::new("sleep").arg("60").spawn().expect("it starts");
        let end = wait(&mut child, Duration::from_millis(100));
        assert_eq!(end.expect("it can be waited for"), End::Late);
    }
}
