//! Files and arguments for captures: ones that are none, too long or swapped, and which of several
//! faults is answered.

use crate::captures::{
    done, over_table, refused, small, small_done, with_number, NUMBERS, TOO_LONG,
};
use crate::plan::{bytes, plain, shown, special, values, Input, Trial, Wanted, NO_FILE, TABLE};
use trials::captures::{Capture, LAYOUTS, MOST_CAPTURE};
use trials::Program;

const MISSING: &str = "/no such folder/file";

/// Numbers of arguments that the program does not take.
const COUNTS: [usize; 8] = [0, 1, 2, 4, 5, 7, 8, 1000];

pub fn files_and_arguments() -> Vec<Trial> {
    [
        files(),
        sizes(),
        several_files(),
        several_numbers(),
        counts(),
        numbers(),
    ]
    .into_iter()
    .flatten()
    .collect()
}

/// A capture that is done.
pub fn whole() -> Input {
    Input::Bytes(small(LAYOUTS[0]).bytes())
}

pub fn trial(name: &str, files: [Input; 2], numbers: [&str; 4], wanted: Option<Wanted>) -> Trial {
    Trial {
        name: name.to_string(),
        program: Program::Capture,
        inputs: [&files[..], &numbers.map(plain)].concat(),
        wanted,
    }
}

/// Odd files in the place of the capture and in that of the table, and both swapped.
fn files() -> Vec<Trial> {
    let mut all = Vec::new();
    for (name, input, wanted) in special() {
        let [capture, table] = [[input.clone(), bytes(TABLE)], [whole(), input]];
        let named = format!("capture: {name}");
        all.push(trial(&named, capture, NUMBERS, wanted.clone()));
        all.push(trial(&format!("table: {name}"), table, NUMBERS, wanted));
    }
    let named = Input::Named("odd \t\n%s\u{e9}.pcap", small(LAYOUTS[0]).bytes());
    let end = |end: &str| Some(Wanted::End(end.to_string()));
    let endless = format!("cannot read /dev/zero{TOO_LONG}");
    let pairs = [
        ("an odd name", [named, bytes(TABLE)], Some(small_done())),
        ("no end", [plain("/dev/zero"), bytes(TABLE)], end(&endless)),
        ("swapped", [bytes(TABLE), whole()], Some(refused(41, 1))),
        (
            "the table twice",
            [bytes(TABLE), bytes(TABLE)],
            Some(refused(32, 0)),
        ),
        (
            "the capture twice",
            [whole(), whole()],
            Some(refused(41, 1)),
        ),
    ];
    let named = pairs.map(|(name, files, wanted)| trial(name, files, NUMBERS, wanted));
    all.extend(named);
    all
}

/// Files of as many bytes as there may be, and of one more.
fn sizes() -> Vec<Trial> {
    let mut record = LAYOUTS[3].record(0, 100, 46);
    let empty = Capture::new(LAYOUTS[3], vec![record.clone()]).bytes().len() - record.packet.len();
    record.packet.resize(MOST_CAPTURE - empty, 0);
    record.included = record.packet.len() as u32;
    let long = Capture::new(LAYOUTS[3], vec![record]).bytes();
    let one = done(["0,0,4,100,0,0,80".to_string()]);
    let files = [
        ("one packet", long, one),
        ("zeros", vec![0; MOST_CAPTURE], refused(32, 0)),
    ];
    let both = |(name, mut bytes, wanted): (&str, Vec<u8>, Wanted)| {
        let of = |bytes: &[u8], wanted| {
            let name = format!("{} bytes, {name}", bytes.len());
            over_table(name, Input::Bytes(bytes.to_vec()), NUMBERS, wanted)
        };
        let most = of(&bytes, wanted);
        bytes.push(0);
        [most, of(&bytes, Wanted::End(TOO_LONG.to_string()))]
    };
    files.into_iter().flat_map(both).collect()
}

/// Several faults of files at once, of which one comes first; where RATE or FIRST is 0, those too.
fn several_files() -> Vec<Trial> {
    let end = |end: &str| Wanted::End(end.to_string());
    let one_row = bytes(&TABLE[..32]);
    let no_identifier = bytes(&TABLE.replacen("2,1", "0,1", 1));
    let is_missing = format!("{MISSING}{NO_FILE}");
    let [missing, faulty, empty] = [plain(MISSING), bytes("x"), bytes("")];
    let long = Input::Bytes(vec![0; MOST_CAPTURE + 1]);
    let [rate, class] = [3, 0].map(|place| with_number(place, "0"));
    let mut back = small(LAYOUTS[0]);
    back.records[0].seconds = 1;
    let back = Input::Bytes(back.bytes());
    let pairs = [
        ([&missing, &missing], NUMBERS, end(&is_missing)),
        ([&long, &missing], NUMBERS, end(TOO_LONG)),
        ([&long, &faulty], rate, end(TOO_LONG)),
        ([&empty, &missing], rate, end(&is_missing)),
        ([&empty, &faulty], rate, refused(41, 1)),
        ([&empty, &one_row], rate, refused(30, 0)),
        ([&empty, &one_row], class, refused(31, 0)),
        ([&back, &one_row], class, refused(38, 1)),
        ([&whole(), &one_row], class, refused(1, 0)),
        ([&whole(), &no_identifier], class, refused(4, 1)),
    ];
    let named = |(place, (files, numbers, wanted)): (usize, ([&Input; 2], _, _))| {
        let name = format!("several faulty files, {place}");
        trial(&name, files.map(Input::clone), numbers, Some(wanted))
    };
    pairs.into_iter().enumerate().map(named).collect()
}

/// Several numbers that are none, and files that are missing.
fn several_numbers() -> Vec<Trial> {
    let numbers = [
        (["x", "y", "", "-"], "FIRST: it is not a decimal number"),
        (["1", "y", "", "-"], "SECOND: it is not a decimal number"),
        (["1", "2", "", "-"], "THIRD: it is not a decimal number"),
        (["1", "2", "3", "-"], "RATE: it is not a decimal number"),
        (["4294967296", "", "", ""], "FIRST: it is over 4294967295"),
        (["1", "2", "3", "4294967296"], "RATE: it is over 4294967295"),
    ];
    let named = |(numbers, said): ([&str; 4], &str)| {
        let files = [plain(MISSING), plain(MISSING)];
        let wanted = Wanted::End(format!("cannot read {said}\n"));
        trial(
            &format!("numbers {numbers:?}"),
            files,
            numbers,
            Some(wanted),
        )
    };
    numbers.into_iter().map(named).collect()
}

fn counts() -> Vec<Trial> {
    let of = |count: usize| Trial {
        name: format!("{count} arguments"),
        program: Program::Capture,
        inputs: vec![plain("7"); count],
        wanted: None,
    };
    COUNTS.map(of).into()
}

/// Each number in other forms.
fn numbers() -> Vec<Trial> {
    let mut all = Vec::new();
    for value in values() {
        for (place, name) in ["FIRST", "SECOND", "THIRD", "RATE"].into_iter().enumerate() {
            let name = format!("{name} {}", shown(&value));
            let mut trial = trial(&name, [whole(), bytes(TABLE)], NUMBERS, None);
            trial.inputs[2 + place] = plain(&value);
            all.push(trial);
        }
    }
    all
}
