//! Tables, lists and captures that come by standard input.

use crate::capture_files::{trial, whole};
use crate::captures::{refused, small, small_done, NUMBERS, TOO_LONG};
use crate::plan::{
    bytes, plain, wanting, with_events, with_table, Input, Trial, Wanted, EVENTS, IS_FOLDER,
    NO_FILE, NO_TABLE, TABLE,
};
use crate::texts::lengthened;
use trials::captures::{LAYOUTS, MOST_CAPTURE};
use trials::{Program, STANDARD, TWICE};

const NAME: &str = "cannot read standard input";
const NO_HEADING: &str = ", line 1: the heading must be class,length\n";

pub fn standard_inputs() -> Vec<Trial> {
    [
        tables(),
        lists(),
        captures(),
        without_bytes(),
        with_others(),
    ]
    .concat()
}

fn standard(file: Input) -> Input {
    Input::Standard(Box::new(file))
}

/// The bytes as a file that is standard input, and by a pipe, with a name for a reader.
fn both_ways(name: &str, bytes: &[u8]) -> [(String, Input); 2] {
    let bytes = bytes.to_vec();
    let file = standard(Input::Bytes(bytes.clone()));
    [
        (format!("standard input, {name}"), file),
        (format!("a pipe, {name}"), Input::Piped(bytes)),
    ]
}

fn end(end: &str) -> Option<Wanted> {
    Some(Wanted::End(end.to_string()))
}

/// Every program over this table, with what all must print.
fn over_table(name: &str, table: &Input, wanted: &Option<Wanted>) -> Vec<Trial> {
    let named = format!("table: {name}");
    let capture = trial(&named, [whole(), table.clone()], NUMBERS, None);
    let all = [&with_table(name, table.clone())[..], &[capture]].concat();
    wanting(all, wanted).collect()
}

fn over_list(name: &str, list: Input, wanted: Option<Wanted>) -> Trial {
    Trial {
        wanted,
        ..with_events(name, list)
    }
}

fn over_capture(name: &str, capture: Input, wanted: Option<Wanted>) -> Trial {
    let files = [capture, bytes(TABLE)];
    trial(&format!("capture: {name}"), files, NUMBERS, wanted)
}

fn tables() -> Vec<Trial> {
    let doubled = TABLE.replacen("3,1", "2,1", 1);
    let no_share = TABLE.replacen("5,2,420", "5,2,0", 1);
    let many = lengthened(TABLE, 257).bytes;
    let long = lengthened(TABLE, 8000).bytes;
    let answer = |number, place| Some(Wanted::Answer([number, place]));
    let texts: [(&str, &[u8], Option<Wanted>); 7] = [
        ("accepted", TABLE.as_bytes(), None),
        ("a doubled identifier", doubled.as_bytes(), None),
        ("no share", no_share.as_bytes(), answer(8, 4)),
        ("257 rows", &many, answer(1, 0)),
        ("too many bytes", &long, answer(40, 0)),
        ("no heading", NO_TABLE.as_bytes(), answer(41, 1)),
        ("cut off", &TABLE.as_bytes()[..40], answer(47, 3)),
    ];
    let over = |(name, text, wanted): (&str, &[u8], Option<Wanted>)| {
        let both = both_ways(name, text).into_iter();
        both.flat_map(move |(name, input)| over_table(&name, &input, &wanted))
    };
    texts.into_iter().flat_map(over).collect()
}

fn lists() -> Vec<Trial> {
    let [full, many] = [65_536, 65_537].map(|count| lengthened(EVENTS, count).bytes);
    let no_class = EVENTS.replacen("4,100", "6,100", 1);
    let texts: [(&str, &[u8], Option<Wanted>); 6] = [
        ("accepted", EVENTS.as_bytes(), None),
        ("65,536 events", &full, None),
        ("65,537 events", &many, Some(refused(2, 0))),
        ("no class", no_class.as_bytes(), Some(refused(11, 0))),
        (
            "a table",
            TABLE.as_bytes(),
            end(&format!("{NAME}{NO_HEADING}")),
        ),
        (
            "cut off",
            &EVENTS.as_bytes()[..18],
            end(&format!("{NAME}, line 2: the line has no end\n")),
        ),
    ];
    let over = |(name, text, wanted): (&str, &[u8], Option<Wanted>)| {
        both_ways(name, text).map(|(name, input)| over_list(&name, input, wanted.clone()))
    };
    texts.into_iter().flat_map(over).collect()
}

fn captures() -> Vec<Trial> {
    let done = LAYOUTS.map(|layout| (layout.to_string(), small(layout).bytes()));
    let cut = &done[0].1[..done[0].1.len() - 1];
    let long = vec![0; MOST_CAPTURE + 1];
    let too_long = end(&format!("{NAME}{TOO_LONG}"));
    let mut files: Vec<(&str, &[u8], Option<Wanted>)> = vec![
        ("a table", TABLE.as_bytes(), Some(refused(32, 0))),
        ("cut off", cut, Some(refused(36, 1))),
        ("as long as it may be", &long[1..], Some(refused(32, 0))),
        ("too long", &long[..], too_long.clone()),
    ];
    let layouts = done.iter();
    files.extend(layouts.map(|(name, done)| (&name[..], &done[..], Some(small_done()))));
    let over = |(name, bytes, wanted): (&str, &[u8], Option<Wanted>)| {
        both_ways(name, bytes).map(|(name, input)| over_capture(&name, input, wanted.clone()))
    };
    let mut all: Vec<Trial> = files.into_iter().flat_map(over).collect();
    let endless = standard(plain("/dev/zero"));
    all.push(over_capture("standard input, no end", endless, too_long));
    all
}

/// Standard input that is a folder, that has no bytes, and a pipe that has none.
fn without_bytes() -> Vec<Trial> {
    let is_folder = end(&format!("{NAME}{IS_FOLDER}"));
    let no_list = end(&format!("{NAME}{NO_HEADING}"));
    let nothing = [Some(refused(47, 1)), no_list, Some(refused(31, 0))];
    let inputs = [
        (
            "a folder",
            standard(Input::Folder),
            [(); 3].map(|()| is_folder.clone()),
        ),
        ("nothing", plain(STANDARD), nothing.clone()),
        ("an empty pipe", Input::Piped(Vec::new()), nothing),
    ];
    let over = |(name, input, [table, list, capture]): (&str, Input, [Option<Wanted>; 3])| {
        let name = format!("standard input is {name}");
        let mut all = over_table(&name, &input, &table);
        all.push(over_list(&name, input.clone(), list));
        all.push(over_capture(&name, input, capture));
        all
    };
    inputs.into_iter().flat_map(over).collect()
}

/// Standard input twice, and beside files and numbers that cannot be read.
fn with_others() -> Vec<Trial> {
    let table = || standard(bytes(TABLE));
    let missing = || plain("/no such folder/file");
    let twice = end(&format!("{TWICE}\n"));
    let no_number = end("cannot read LARGEST: it is not a decimal number\n");
    let replay = |inputs: &[Input], wanted| (Program::Replay, inputs.to_vec(), wanted);
    let promise = |inputs: &[Input]| (Program::Promise, inputs.to_vec(), no_number.clone());
    let capture = |files: [Input; 2], numbers: [&str; 4], wanted| {
        let inputs = [&files[..], &numbers.map(plain)].concat();
        (Program::Capture, inputs, wanted)
    };
    let faulty = standard(bytes(NO_TABLE));
    let trials = [
        replay(&[table(), table()], twice.clone()),
        replay(
            &[table(), plain("./-")],
            end("./-, line 1: the line has no end\n"),
        ),
        replay(&[table(), missing()], end(NO_FILE)),
        replay(&[missing(), table()], end(NO_FILE)),
        replay(&[faulty, missing()], Some(refused(41, 1))),
        replay(&[table(), table(), table()], None),
        promise(&[table(), plain(STANDARD)]),
        promise(&[table(), plain("x")]),
        capture([table(), table()], NUMBERS, twice.clone()),
        capture([table(), table()], ["x", "-", "", "0"], twice.clone()),
        capture([table(), missing()], NUMBERS, end(NO_FILE)),
        capture([missing(), table()], NUMBERS, end(NO_FILE)),
    ];
    let named = |(place, (program, inputs, wanted)): (usize, (Program, Vec<Input>, _))| Trial {
        name: format!("standard input and others, {place}"),
        program,
        inputs,
        wanted,
    };
    trials.into_iter().enumerate().map(named).collect()
}

#[cfg(test)]
mod tests {
    use std::collections::BTreeSet;

    use super::*;

    #[test]
    fn each_file_of_each_program_is_standard_input_at_times_as_a_file_and_as_a_pipe() {
        let trials = standard_inputs();
        let found = |program: Program, place: usize, piped: bool| {
            let is = |input: Option<&Input>| match input {
                Some(Input::Piped(bytes)) => piped && !bytes.is_empty(),
                Some(Input::Standard(_)) => !piped,
                _ => false,
            };
            let of_program = trials.iter().filter(|trial| trial.program == program);
            let count = of_program.filter(|t| is(t.inputs.get(place))).count();
            assert!(count > 5, "{program:?} {place} {piped} {count}");
        };
        let files = [
            (Program::Replay, 0),
            (Program::Replay, 1),
            (Program::Promise, 0),
            (Program::Capture, 0),
            (Program::Capture, 1),
            (Program::Table, 0),
        ];
        for (program, place) in files {
            found(program, place, false);
            found(program, place, true);
        }
    }

    #[test]
    fn names_are_distinct() {
        let trials = standard_inputs();
        let names: BTreeSet<String> = trials.iter().map(Trial::to_string).collect();
        assert_eq!(names.len(), trials.len());
    }
}
