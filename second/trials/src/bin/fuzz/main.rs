//! The program `fuzz PROVED SECOND EXAMPLES SECONDS [SEED]`: both programs over damaged examples.
#![forbid(unsafe_code)]

mod damage;

use std::env;
use std::ffi::OsString;
use std::fs;
use std::io::{Error, Result};
use std::os::unix::ffi::{OsStrExt, OsStringExt};
use std::path::{Path, PathBuf};
use std::process::ExitCode;
use std::time::{Duration, Instant};

use damage::{damage, damage_capture};
use trials::{
    answer_name, counted, difference, folders, Bench, CaptureFile, Files, Folder, Program, Random,
    ANSWERS,
};

const DEFAULT_SEED: u64 = 1;

/// Where LARGEST, OWN and PACKETS begin before they are damaged.
const SHEETS: [&[&[u8]]; 8] = [
    &[b"1500"],
    &[b"1500", b"6000"],
    &[b"9000", b"4294967295"],
    &[b"1500", b"6000", b"40"],
    &[b"9000", b"4294967295", b"65536"],
    &[b"1", b"0", b"0"],
    &[b"2049"],
    &[b"9001"],
];

/// What a table without a capture is for, half of the time a list.
const PROGRAMS_OF_TABLES: [Program; 4] = [
    Program::Replay,
    Program::Replay,
    Program::Promise,
    Program::Table,
];

/// Bytes of an argument at most.
const MOST_ARGUMENT: usize = 100_000;

struct Settings {
    programs: [PathBuf; 2],
    examples: PathBuf,
    time: Duration,
    seed: u64,
}

fn main() -> ExitCode {
    counted("fuzz", |arguments| fuzz(&settings(arguments)?))
}

fn settings(arguments: &[OsString]) -> Result<Settings> {
    let number = |place: usize| -> Option<u64> { arguments.get(place)?.to_str()?.parse().ok() };
    let seed = match arguments.len() {
        4 => Some(DEFAULT_SEED),
        5 => number(4),
        _ => None,
    };
    match (arguments, number(3), seed) {
        ([proved, second, examples, ..], Some(seconds), Some(seed)) => Ok(Settings {
            programs: folders(proved, second)?,
            examples: examples.into(),
            time: Duration::from_secs(seconds),
            seed,
        }),
        _ => Err(Error::other("say for how long: fuzz SECONDS [SEED]")),
    }
}

/// Compares until the time is over and prints what came of it; true if nothing failed.
fn fuzz(settings: &Settings) -> Result<bool> {
    let folder = Folder::fresh("fuzz")?;
    let bench = Bench::new(&settings.programs, folder.path())?;
    let examples = examples(&settings.examples)?;
    let begun = Instant::now();
    let mut counts = [0; ANSWERS];
    let mut failed = 0;
    for number in 0.. {
        if begun.elapsed() > settings.time {
            break;
        }
        let files = damaged_files(&examples, &mut Random::new(settings.seed, number));
        match bench.run(&files)?.agreed() {
            Some(answer) => counts[answer] += 1,
            None => {
                keep(settings.seed, number, &files)?;
                if failed == 0 {
                    print!("{}", difference(&bench, &files)?);
                }
                failed += 1;
            }
        }
    }
    print!("{}", text(&counts));
    println!("{} passed, {failed} failed", counts.iter().sum::<usize>());
    Ok(failed == 0)
}

/// A line for each answer that came up.
fn text(counts: &[usize; ANSWERS]) -> String {
    let came_up = counts.iter().enumerate().filter(|(_, count)| **count > 0);
    came_up
        .map(|(answer, count)| format!("{}: {count}\n", answer_name(answer)))
        .collect()
}

struct Example {
    table: Vec<u8>,
    events: Vec<u8>,
    capture: Option<Vec<u8>>,
    /// Those after the table.
    arguments: Vec<Vec<u8>>,
}

impl Example {
    /// What is in this folder, if there is a table.
    fn read(folder: &Path) -> Option<Example> {
        let file = |name: &str| fs::read(folder.join(name));
        let arguments = file("arguments").unwrap_or_default();
        let arguments = arguments.split(u8::is_ascii_whitespace);
        Some(Example {
            table: file("table.csv").ok()?,
            // A sheet and a capture have no events.
            events: file("events.csv").unwrap_or_default(),
            capture: file("capture.pcap").ok(),
            arguments: arguments
                .filter(|a| !a.is_empty())
                .map(<[u8]>::to_vec)
                .collect(),
        })
    }
}

/// The examples below this folder, in a fixed order.
fn examples(folder: &Path) -> Result<Vec<Example>> {
    let mut found = Vec::new();
    let mut folders = vec![folder.to_path_buf()];
    while let Some(folder) = folders.pop() {
        let entries: Result<Vec<_>> = fs::read_dir(&folder)?.collect();
        let mut paths: Vec<PathBuf> = entries?.iter().map(|entry| entry.path()).collect();
        paths.sort();
        folders.extend(paths.into_iter().filter(|path| path.is_dir()));
        found.extend(Example::read(&folder));
    }
    match found.is_empty() {
        true => Err(Error::other(format!("no examples in {}", folder.display()))),
        false => Ok(found),
    }
}

/// One example with its capture or without, damaged once or several times.
fn damaged_files(examples: &[Example], random: &mut Random) -> Files {
    let [own, other] = [(); 2].map(|()| &examples[random.below(examples.len())]);
    match &own.capture {
        Some(capture) => damaged_capture(own, capture, other, random),
        None => damaged(own, other, random),
    }
}

/// A capture with its table and arguments.
fn damaged_capture(own: &Example, capture: &[u8], other: &Example, random: &mut Random) -> Files {
    let (mut bytes, mut table) = (capture.to_vec(), own.table.clone());
    let mut arguments = own.arguments.clone();
    let gentle = random.one_in(2);
    for _ in 0..random.pick(&[1, 1, 1, 2, 3, 8]) {
        let place = random.below(arguments.len().max(1));
        match (random.below(6), arguments.get_mut(place)) {
            (0, Some(argument)) => damage(argument, SHEETS[2][1], gentle, random),
            (1, _) => damage(&mut table, &other.table, gentle, random),
            _ => {
                let spliced = other.capture.as_deref().unwrap_or(&other.events);
                damage_capture(&mut bytes, spliced, gentle, random);
            }
        }
    }
    Files {
        table: Some(table),
        capture: Some(CaptureFile {
            bytes: Some(bytes),
            numbers: passed(arguments),
        }),
        ..Files::default()
    }
}

/// A table with its list, as a sheet, or alone.
fn damaged(own: &Example, other: &Example, random: &mut Random) -> Files {
    let (mut table, mut events) = (own.table.clone(), own.events.clone());
    let mut sheet: Vec<Vec<u8>> = random.pick(&SHEETS).iter().map(|a| a.to_vec()).collect();
    let program = random.pick(&PROGRAMS_OF_TABLES);
    let gentle = random.one_in(2);
    for _ in 0..random.pick(&[1, 1, 1, 2, 3, 8]) {
        match (random.one_in(2), program) {
            (true, _) | (false, Program::Table) => {
                damage(&mut table, &other.table, gentle, random);
            }
            (false, Program::Promise) => {
                let place = random.below(sheet.len());
                damage(&mut sheet[place], SHEETS[2][1], gentle, random);
            }
            (false, _) => damage(&mut events, &other.events, gentle, random),
        }
    }
    Files {
        table: Some(table),
        events: (program == Program::Replay).then_some(events),
        sheet: (program == Program::Promise).then(|| passed(sheet)),
        capture: None,
        alone: program == Program::Table,
    }
}

/// What can be passed of these arguments: no byte 0, nor more bytes than a system takes.
fn passed(arguments: Vec<Vec<u8>>) -> Vec<OsString> {
    let can_be = |mut argument: Vec<u8>| {
        argument.retain(|byte| *byte != 0);
        argument.truncate(MOST_ARGUMENT);
        OsString::from_vec(argument)
    };
    arguments.into_iter().map(can_be).collect()
}

/// Keeps the files of a difference where temporary files are, and says where.
fn keep(seed: u64, number: u64, files: &Files) -> Result<()> {
    let folder = env::temp_dir().join(format!("fuzz-kept-{seed}-{number}"));
    fs::create_dir_all(&folder)?;
    let capture = files.capture.as_ref();
    let numbers = capture.map(|capture| &capture.numbers);
    let arguments = files.sheet.as_ref().or(numbers).map(|arguments| {
        let lines = arguments.iter().map(|a| [a.as_bytes(), b"\n"].concat());
        lines.collect::<Vec<_>>().concat()
    });
    let kept = [
        ("table.csv", files.table.as_ref()),
        ("events.csv", files.events.as_ref()),
        (
            "capture.pcap",
            capture.and_then(|capture| capture.bytes.as_ref()),
        ),
        ("arguments", arguments.as_ref()),
    ];
    for (name, bytes) in kept {
        if let Some(bytes) = bytes {
            fs::write(folder.join(name), bytes)?;
        }
    }
    println!("fuzz: the programs differ on {}", folder.display());
    Ok(())
}
