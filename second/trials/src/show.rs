//! Shows a difference: the files and what each program printed.

use std::io::Result;

use crate::captures::parts;
use crate::shrink::shrink;
use crate::{lines, Bench, Both, Files, Printed, Program};

/// Lines of a file or an output that are shown at most.
const MOST_LINES: usize = 60;

/// Lines that are shown before the first that differs, where not all are shown.
const LINES_BEFORE: usize = 10;

/// Bytes of a record that are shown at most.
const MOST_OF_RECORD: usize = 64;

/// What is left of files on which the programs differ when they are cut down.
pub fn difference(bench: &Bench, files: &Files) -> Result<String> {
    let mut differs = |files: &_| bench.run(files).is_ok_and(|both| both.agreed().is_none());
    let small = shrink(files, &mut differs);
    Ok(text(&small, &bench.run(&small)?))
}

fn text(files: &Files, both: &Both) -> String {
    let [proved, second] = &both.printed;
    let outputs = lines(&proved.output).into_iter().zip(lines(&second.output));
    let alike = outputs.take_while(|(one, other)| one == other).count();
    let arguments = match &files.capture {
        Some(capture) => Some(&capture.numbers),
        None => files.sheet.as_ref(),
    };
    let list = match files.program() {
        Program::Capture => {
            let bytes = files.capture.as_ref().and_then(|c| c.bytes.as_deref());
            file("the capture, in hexadecimal digits", &bytes.map(in_digits))
        }
        Program::Replay => file("the list", &files.events),
        Program::Promise | Program::Table => String::new(),
    };
    [
        file("the table", &files.table),
        list,
        arguments.map_or(String::new(), |arguments| {
            format!("--- arguments after the table: {arguments:?}\n")
        }),
        printed("the proved program", proved, alike),
        printed("the second program", second, alike),
    ]
    .concat()
}

fn file(name: &str, bytes: &Option<Vec<u8>>) -> String {
    match bytes {
        Some(bytes) => format!("--- {name}\n{}", shown(bytes, 0)),
        None => format!("--- {name} is a file that is not there\n"),
    }
}

/// A line for a capture's header, for each record, and for what is no whole one.
fn in_digits(bytes: &[u8]) -> Vec<u8> {
    let line = |part: Vec<u8>| {
        let shown = part.iter().take(MOST_OF_RECORD);
        let digits: String = shown.map(|byte| format!("{byte:02x}")).collect();
        format!("{digits} ({} bytes)\n", part.len())
    };
    let lines = parts(bytes).into_iter().map(line);
    lines.collect::<String>().into_bytes()
}

/// The end too, since it says whether the rest is as it must be.
fn printed(name: &str, printed: &Printed, alike: usize) -> String {
    let Printed { output, error, end } = printed;
    let [output, error] = [shown(output, alike), shown(error, 0)];
    format!(
        "--- {name} ended with {end:?}, standard output\n{output}\
         --- {name}, standard error\n{error}"
    )
}

/// The lines, with other bytes than plain characters spelt out; of many lines those
/// about the first that is not alike.
fn shown(bytes: &[u8], alike: usize) -> String {
    let lines = lines(bytes);
    let mut text = String::new();
    let mut left_out = 0;
    if lines.len() > MOST_LINES && alike > LINES_BEFORE {
        left_out = alike - LINES_BEFORE;
        text += &format!("({left_out} lines that are alike)\n");
    }
    for line in lines.iter().skip(left_out).take(MOST_LINES) {
        match line.strip_suffix(b"\n") {
            Some(body) => text += &format!("{}\n", body.escape_ascii()),
            None => text += &format!("{} (no line end)\n", line.escape_ascii()),
        }
    }
    let further = lines.len().saturating_sub(left_out + MOST_LINES);
    if further > 0 {
        text += &format!("(and {further} further lines)\n");
    }
    text
}

#[cfg(test)]
mod tests {
    use super::*;
    use crate::captures::{Capture, CaptureCase, LAYOUTS};
    use crate::{even_table, Asked, Case, End, Fed};

    /// What is shown where the programs differ in the status alone.
    fn shown_of(files: &Files) -> String {
        let printed = |status| Printed {
            output: b"o\r\n".to_vec(),
            error: b"e\n".to_vec(),
            end: End::Status(status),
        };
        let asked = Asked {
            program: files.program(),
            arguments: Vec::new(),
            fed: Fed::Nothing,
        };
        let printed = [printed(1), printed(0)];
        text(files, &Both { asked, printed })
    }

    #[test]
    fn the_files_of_each_program_are_shown_and_both_ends() {
        let list = Files::of(&Case {
            rows: even_table(&[1]),
            events: Vec::new(),
        });
        let table = "--- the table\nidentifier,parent,share\\r\n1,0,0\\r\n2,1,840\\r\n";
        let ends = "--- the proved program ended with Status(1), standard output\no\\r\n\
                    --- the proved program, standard error\ne\n\
                    --- the second program ended with Status(0), standard output\no\\r\n\
                    --- the second program, standard error\ne\n";
        let expected = format!("{table}--- the list\nclass,length\n{ends}");
        assert_eq!(shown_of(&list), expected);
        let alone = Files {
            events: None,
            alone: true,
            ..list
        };
        assert_eq!(shown_of(&alone), format!("{table}{ends}"));
        let sheet = Files {
            sheet: Some(vec!["7".into()]),
            ..alone
        };
        let arguments = "--- arguments after the table: [\"7\"]\n";
        assert_eq!(shown_of(&sheet), format!("{table}{arguments}{ends}"));
        let case = CaptureCase {
            capture: Capture::new(LAYOUTS[2], Vec::new()),
            rows: even_table(&[1]),
            classes: [2; 3],
            rate: 1,
        };
        let capture = shown_of(&case.files());
        assert!(capture.contains("--- the capture, in hexadecimal digits\na1b2c3d4"));
    }

    #[test]
    fn odd_bytes_and_missing_ends_are_seen() {
        assert_eq!(shown(b"1,2\r\n\xff", 0), "1,2\\r\n\\xff (no line end)\n");
    }

    #[test]
    fn a_capture_is_shown_record_by_record() {
        let record = LAYOUTS[2].record(1, 100, 46);
        let capture = Capture::new(LAYOUTS[2], vec![record.clone(), record]);
        let shown = in_digits(&capture.bytes()[..70]);
        let text = String::from_utf8(shown).expect("it is text");
        let ends: Vec<&str> = text.lines().map(|line| &line[line.len() - 10..]).collect();
        assert_eq!(ends, ["(24 bytes)", "(36 bytes)", "(10 bytes)"]);
        assert!(text.starts_with("a1b2c3d400020004"));
    }

    #[test]
    fn of_many_lines_those_about_the_difference_are_shown() {
        let long = b"1\n".repeat(100);
        assert!(shown(&long, 0).ends_with("1\n(and 40 further lines)\n"));
        let from_difference = shown(&long, 30);
        assert!(from_difference.starts_with("(20 lines that are alike)\n1\n"));
        assert!(from_difference.ends_with("1\n(and 20 further lines)\n"));
        assert_eq!(shown(&long, 60).lines().count(), 51);
    }
}
