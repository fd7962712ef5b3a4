//! Events by a pipe, each line answered before the next one is sent.

use std::fs::{self, File};
use std::io::{BufRead, BufReader, Result, Write};
use std::path::Path;
use std::process::{Child, ChildStdin, Command, Stdio};
use std::sync::mpsc::{channel, Receiver};
use std::thread;
use std::time::{Duration, Instant};

use crate::day::{STATE, TABLE};
use crate::lists::mixed;
use crate::pair::{wrong, Pair, Tried};
use crate::shown::whole_print;
use crate::tally::Met;
use trials::{random_table, Case, End, Printed, Random, SHAPES};

/// No answer takes as long as this.
const MOST_TIME: Duration = Duration::from_secs(10);

/// One of the programs while it runs.
struct Side {
    child: Child,
    input: Option<ChildStdin>,
    lines: Receiver<Vec<u8>>,
    output: Vec<u8>,
}

impl Side {
    fn start(program: &Path, folder: &Path) -> Result<Side> {
        let mut child = Command::new(program)
            .args(["events", STATE, "-"])
            .current_dir(folder)
            .stdin(Stdio::piped())
            .stdout(Stdio::piped())
            .stderr(File::create(folder.join("error"))?)
            .spawn()?;
        let (to, lines) = channel();
        if let Some(output) = child.stdout.take() {
            let mut output = BufReader::new(output);
            thread::spawn(move || {
                let mut line = Vec::new();
                while output
                    .read_until(b'\n', &mut line)
                    .is_ok_and(|read| read > 0)
                {
                    if to.send(std::mem::take(&mut line)).is_err() {
                        return;
                    }
                }
            });
        }
        Ok(Side {
            input: child.stdin.take(),
            child,
            lines,
            output: Vec::new(),
        })
    }

    /// A program that has ended reads no more, which its answers show.
    fn send(&mut self, bytes: &[u8]) {
        if let Some(input) = &mut self.input {
            let _ = input.write_all(bytes);
        }
    }

    /// Its next line; none if it does not come in time.
    fn line(&mut self) -> Option<Vec<u8>> {
        let line = self.lines.recv_timeout(MOST_TIME).ok()?;
        self.output.extend(&line);
        Some(line)
    }

    /// All that it printed, after the end of its input.
    fn end(mut self, folder: &Path) -> Result<Printed> {
        drop(self.input.take());
        while self.line().is_some() {}
        let begun = Instant::now();
        let end = loop {
            match self.child.try_wait()? {
                Some(status) => break status.code().map_or(End::Killed, End::Status),
                None if begun.elapsed() > MOST_TIME => {
                    self.child.kill()?;
                    self.child.wait()?;
                    break End::Late;
                }
                None => thread::sleep(Duration::from_micros(200)),
            }
        };
        Ok(Printed {
            output: self.output,
            error: fs::read(folder.join("error"))?,
            end,
        })
    }
}

/// Both programs while they run.
struct Talk<'a> {
    pair: &'a mut Pair,
    sides: [Side; 2],
}

impl<'a> Talk<'a> {
    fn start(pair: &'a mut Pair) -> Tried<Talk<'a>> {
        let start = |side: usize| Side::start(&pair.programs.live[side], &pair.folders[side]);
        let sides = [start(0)?, start(1)?];
        let mut talk = Talk { pair, sides };
        talk.answered("the start")?;
        Ok(talk)
    }

    fn send(&mut self, bytes: &[u8]) {
        self.sides.iter_mut().for_each(|side| side.send(bytes));
    }

    /// Both have answered with the same line by now, and have kept the same state.
    fn answered(&mut self, asked: &str) -> Tried<Vec<u8>> {
        let [proved, second] = &mut self.sides;
        let lines = (proved.line(), second.line());
        let (Some(line), true) = (&lines.0, lines.0 == lines.1) else {
            return wrong(&format!("line by line, {asked}"), &format!("{lines:?}"));
        };
        self.pair.same_files(&format!("line by line, {asked}"))?;
        self.pair.tally.met(Met::Line);
        Ok(line.clone())
    }

    fn end(self, asked: &str) -> Tried<Printed> {
        let [proved, second] = self.sides;
        let [first, other] = &self.pair.folders;
        let printed = [proved.end(first)?, second.end(other)?];
        let [proved, second] = printed;
        self.pair.agree(asked, proved, second)
    }
}

/// A day line by line; now and then lines come in pieces.
pub fn talk(pair: &mut Pair, seed: u64, number: usize) -> Tried<()> {
    let mut random = Random::new(seed ^ 0x7a1c, number as u64);
    let rows = random_table(random.pick(&SHAPES), 840, &mut random);
    let events = mixed(&rows, 25, &mut random);
    let case = Case { rows, events };
    pair.clear()?;
    pair.put(TABLE, case.table_text().as_bytes())?;
    pair.ask(&["fresh", TABLE, STATE])?;
    let mut talk = Talk::start(pair)?;
    for (number, line) in case.event_text().split_inclusive('\n').enumerate() {
        let (before, rest) = line.split_at(random.below(line.len()));
        talk.send(before.as_bytes());
        if random.one_in(4) {
            thread::sleep(Duration::from_millis(1));
        }
        talk.send(rest.as_bytes());
        if number > 0 {
            talk.answered(line)?;
        }
    }
    let cut = random.one_in(4);
    if cut {
        talk.send(b"0,");
    }
    let printed = talk.end("line by line, to the end")?;
    match (printed.end == End::Status(2)) == cut {
        true => Ok(()),
        false => wrong("line by line", &whole_print(&printed)),
    }
}

/// The state can no longer be written at some time, and stays as it was then.
pub fn unwritable_later(pair: &mut Pair) -> Tried<()> {
    let mut talk = Talk::start(pair)?;
    talk.send(b"class,length\n10,100\n");
    talk.answered("the first packet")?;
    let before = talk.pair.get(STATE)?;
    talk.pair
        .each(|folder| fs::create_dir(folder.join("state.new")))?;
    talk.send(b"7,7\n");
    talk.answered("a refusal, by which nothing is to be written")?;
    talk.send(b"30,1\n20,100\n0,0\n");
    let printed = talk.end("line by line, with a folder in the way")?;
    let said = b"cannot write state: it is a folder\n";
    match printed.error.ends_with(said) && pair.get(STATE)? == before {
        true => Ok(()),
        false => wrong(
            "live events, with a folder in the way",
            &whole_print(&printed),
        ),
    }
}
