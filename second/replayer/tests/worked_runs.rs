//! The examples, the worked runs among them: each comes out as its stored answer says.

use std::fs;
use std::path::{Path, PathBuf};

use crate::call::{longs, words, Call};

/// The folders of the examples that are runs.
fn folders() -> Vec<PathBuf> {
    let examples = Path::new(env!("CARGO_MANIFEST_DIR")).join("../../examples");
    let inside = |folder: &Path| {
        let entries = fs::read_dir(folder).expect("the examples are there");
        entries.map(|entry| entry.expect("an example can be read").path())
    };
    let all = inside(&examples).chain(inside(&examples.join("worked")));
    all.filter(|folder| folder.join("events.csv").exists())
        .collect()
}

fn text(folder: &Path, name: &str) -> String {
    fs::read_to_string(folder.join(name)).expect("an example has its files")
}

/// The lines of numbers below the heading.
fn lines(folder: &Path, name: &str) -> Vec<Vec<u32>> {
    let text = text(folder, name);
    let number = |field: &str| field.parse().expect("a field is a number");
    let line = |line: &str| line.split(',').map(number).collect();
    text.lines().skip(1).map(line).collect()
}

/// What is printed of a run, but for the sentence on a refusal.
fn printed(call: &Call) -> String {
    let join = |numbers: Vec<String>| numbers.join(",");
    let answer = call.answer();
    let mut text = String::from("answer,place,second,count\r\n");
    text += &join(answer.iter().map(u32::to_string).collect());
    if answer[0] != 0 {
        return text + "\r\n";
    }
    text += "\r\norder\r\n";
    for place in &words(&call.0[5])[..answer[3] as usize] {
        text += &format!("{place}\r\n");
    }
    text += "identifier,bytes,start,finish,virtual,held,lag\r\n";
    let [report, lags] = [&call.0[6], &call.0[7]].map(|bytes| longs(bytes));
    let rows = report.chunks_exact(5).zip(lags);
    for (identifier, (numbers, lag)) in words(&call.0[0]).iter().zip(rows) {
        let numbers = join(numbers.iter().map(u64::to_string).collect());
        text += &format!("{identifier},{numbers},{}\r\n", lag as i64);
    }
    text
}

/// Whether a stored answer is a fault of the table's text, which is not looked at here.
fn is_of_text(stored: &str) -> bool {
    let answer = stored.lines().nth(1).unwrap_or("");
    let number = answer.split(',').next().unwrap_or("");
    (40..=47).any(|fault: u32| number == fault.to_string())
}

#[test]
fn every_example_comes_out_as_stored() {
    let folders = folders();
    assert!(folders.len() > 30);
    for folder in folders {
        let stored = text(&folder, "answer.csv");
        if is_of_text(&stored) {
            continue;
        }
        let rows = lines(&folder, "table.csv").into_iter();
        let rows: Vec<_> = rows.map(|row| (row[0], row[1], row[2])).collect();
        let events = lines(&folder, "events.csv").into_iter();
        let events: Vec<_> = events.map(|event| (event[0], event[1])).collect();
        let mut call = Call::new(&rows, &events);
        call.run();
        let kept = stored
            .split_inclusive('\n')
            .filter(|line| !line.starts_with("refused "));
        let stored: String = kept.collect();
        assert_eq!(printed(&call), stored, "{}", folder.display());
    }
}
