//! The state of the program `live` in its file: kept whole or as it was, and files that cannot be
//! read or written.

use std::fs::{self, File};
use std::os::unix::fs::symlink;

use crate::common::days::{answers, Day, FRESH, UNSOUND};
use crate::common::files::{by, event_text, failed, table_text};
use crate::common::live::state_after;
use crate::common::{Event, FINISH, HALVES, P4_ROWS};

fn bytes(words: &[u64]) -> Vec<u8> {
    words.iter().flat_map(|word| word.to_le_bytes()).collect()
}

/// A few packets, with the line idle in between.
fn list() -> Vec<Event> {
    let mut events = vec![
        (4, 100),
        (3, 200),
        FINISH,
        FINISH,
        (5, 300),
        (4, 9_000),
        (5, 1),
    ];
    events.extend([FINISH, (3, 1), FINISH, (4, 7), FINISH, FINISH]);
    events
}

#[test]
fn a_fresh_state_has_zeros_where_nothing_stands() {
    let day = Day::fresh("live_bytes", &HALVES);
    let mut words = vec![0; 6_912];
    words[0] = 3;
    for (row, (identifier, _, share)) in HALVES.into_iter().enumerate() {
        words[256 + row] = u64::from(identifier);
        words[768 + row] = u64::from(row > 0);
        words[1_024 + row] = u64::from(share);
    }
    assert_eq!(day.get("state"), bytes(&words));
    assert_eq!(day.names(), ["state", "table"]);
}

#[test]
fn the_words_are_the_boxs() {
    let day = Day::fresh("live_words", &P4_ROWS);
    day.put("events", event_text(&list()).as_bytes());
    assert_eq!(day.live(&["events", "state", "events"]).status, Some(0));
    let mut words = state_after(&P4_ROWS, &list());
    words.truncate(6_912);
    // What is out of use is 0 in a fresh file, and marked in a fresh slice.
    words
        .iter_mut()
        .filter(|word| **word >= 9_000_000_000_000_000_000)
        .for_each(|word| *word = 0);
    assert_eq!(day.get("state"), bytes(&words));
}

#[test]
fn a_state_that_was_kept_goes_on() {
    let [whole, parts] = ["live_whole", "live_parts"].map(|test| Day::fresh(test, &P4_ROWS));
    let said = whole.list(event_text(&list()).as_bytes());
    let mut answered = String::new();
    for event in list() {
        let said = parts.list(event_text(&[event]).as_bytes());
        let line = said.output.lines().nth(1).expect("it is answered");
        answered += &format!("{line}\n");
        assert_eq!(parts.live(&["report", "state"]).status, Some(0));
    }
    assert_eq!(said, answers(&answered, "", 0));
    assert_eq!(parts.get("state"), whole.get("state"));
    assert_eq!(parts.names(), ["events", "state", "table"]);
}

/// It tells a file that was written by its number.
#[test]
fn a_state_that_stays_is_not_written() {
    use std::os::unix::fs::MetadataExt;
    let day = Day::fresh("live_same", &HALVES);
    let number = || {
        let state = fs::metadata(day.folder.join("state"));
        state.expect("it is there").ino()
    };
    let before = number();
    day.events("");
    day.events("7,7\n0,0\n1,1\n10,0\n0,1\n");
    day.list(b"x");
    day.live(&["report", "state"]);
    assert_eq!(number(), before);
    day.events("7,7\n10,1\n");
    assert_ne!(number(), before);
}

#[test]
fn any_other_size_is_no_sound_state() {
    let day = Day::fresh("live_sizes", &HALVES);
    let whole = day.get("state");
    let longer = [&whole[..], &whole].concat();
    for size in [0, 1, 8, 55_295, 55_297, 2 * 55_296] {
        day.put("state", &longer[..size]);
        let expected = answers("20,0,0,0,0\n", UNSOUND, 1);
        assert_eq!(day.events("10,1\n"), expected);
        assert_eq!(day.live(&["report", "state"]), expected);
        assert_eq!(day.get("state").len(), size);
    }
}

#[test]
fn a_state_that_cannot_be_read() {
    let day = Day::fresh("live_unread", &HALVES);
    fs::create_dir(day.folder.join("folder")).expect("it can be made");
    let long = "x".repeat(256);
    for (name, why) in [
        ("missing", "there is no such file"),
        ("", "there is no such file"),
        ("state/state", "there is no such file"),
        ("folder", "it is a folder"),
        (&long, "its name is too long"),
    ] {
        let expected = failed(&format!("cannot read {name}: {why}"));
        assert_eq!(day.live(&["report", name]), expected);
        assert_eq!(day.live(&["events", name, "missing"]), expected);
    }
}

#[test]
fn a_list_or_table_that_cannot_be_read() {
    let day = Day::fresh("live_unread_list", &HALVES);
    fs::create_dir(day.folder.join("folder")).expect("it can be made");
    let before = day.get("state");
    for (name, why) in [
        ("missing", "there is no such file"),
        ("folder", "it is a folder"),
    ] {
        let sentence = format!("cannot read {name}: {why}");
        let said = day.live(&["events", "state", name]);
        assert_eq!(said, answers("", &format!("{sentence}\n"), 2));
        assert_eq!(day.live(&["fresh", name, "state"]), failed(&sentence));
    }
    assert_eq!(day.get("state"), before);
}

#[test]
fn a_state_that_cannot_be_written() {
    let day = Day::fresh("live_unwritten", &HALVES);
    day.put("events", b"class,length\n10,1\n7,7\n");
    fs::create_dir(day.folder.join("folder")).expect("it can be made");
    fs::create_dir(day.folder.join("taken.new")).expect("it can be made");
    fs::copy(day.folder.join("state"), day.folder.join("taken")).expect("it can be copied");
    // Its own name can be read, and the one beside it cannot be made.
    let long = "x".repeat(252);
    fs::copy(day.folder.join("state"), day.folder.join(&long)).expect("it can be copied");
    let names = day.names();
    for (name, why) in [
        ("folder", "it is a folder"),
        ("missing/state", "there is no such folder"),
        ("table/state", "there is no such folder"),
        ("taken", "it is a folder"),
        (&long, "its name is too long"),
        ("/sys/state", "this user may not write it"),
    ] {
        let said = day.live(&["fresh", "table", name]);
        assert_eq!(said, failed(&format!("cannot write {name}: {why}")));
        assert_eq!(day.names(), names);
    }
    let before = day.get("state");
    for (name, why) in [("taken", "it is a folder"), (&long, "its name is too long")] {
        let said = day.live(&["events", name, "events"]);
        assert_eq!(
            said,
            answers("", &format!("cannot write {name}: {why}\n"), 2)
        );
        assert_eq!(
            (day.get(name), day.names()),
            (before.clone(), names.clone())
        );
        // Where nothing changes nothing is written.
        day.put("refused", b"class,length\n7,7\n");
        assert_eq!(day.live(&["events", name, "refused"]).status, Some(1));
        fs::remove_file(day.folder.join("refused")).expect("it can be removed");
    }
}

/// A file as large as this may be begun and not be finished.
#[test]
fn a_state_that_cannot_be_written_to_its_end() {
    let day = Day::fresh("live_cut_off", &HALVES);
    day.put("events", b"class,length\n10,1\n");
    let before = day.get("state");
    let limited = |arguments: &str| {
        let script = format!("trap '' XFSZ; ulimit -f 8; exec \"$0\" {arguments}");
        let live = crate::common::files::LIVE;
        let mut shell = std::process::Command::new("sh");
        by(shell.args(["-c", &script, live]).current_dir(&day.folder))
    };
    let sentence = "cannot write state: the system refuses it with error 27";
    let said = limited("events state events");
    assert_eq!(said, answers("", &format!("{sentence}\n"), 2));
    assert_eq!(limited("fresh table state"), failed(sentence));
    assert_eq!(day.get("state"), before);
    assert_eq!(day.names(), ["events", "state", "table"]);
}

#[test]
fn what_stands_beside_it_is_replaced() {
    let day = Day::fresh("live_beside", &HALVES);
    day.put("state.new", &[7; 70_000]);
    assert_eq!(day.events("10,1\n"), answers("0,0,0,1,0\n", "", 0));
    assert_eq!(day.names(), ["events", "state", "table"]);
    assert_eq!(day.get("state").len(), 55_296);
}

#[test]
fn a_link_is_replaced_and_what_it_leads_to_stays() {
    let day = Day::fresh("live_link", &HALVES);
    let before = day.get("state");
    symlink("state", day.folder.join("link")).expect("it can be made");
    day.put("events", b"class,length\n10,1\n");
    let said = day.live(&["events", "link", "events"]);
    assert_eq!(said, answers("0,0,0,1,0\n", "", 0));
    assert_eq!(day.get("state"), before);
    assert_ne!(day.get("link"), before);
}

#[test]
fn a_file_called_like_standard_input_is_named_with_its_folder() {
    let day = Day::empty("live_dash");
    day.put("table", table_text(&HALVES).as_bytes());
    day.put("-", b"class,length\n10,1\n");
    let said = day.live(&["fresh", "table", "./-"]);
    assert_eq!(said, answers(FRESH, "", 0));
    assert_eq!(day.get("-").len(), 55_296);
}

/// The state is kept before its answers are written, whatever comes of these.
#[test]
fn answers_that_cannot_be_written() {
    let day = Day::fresh("live_full", &HALVES);
    let full = || {
        File::options()
            .write(true)
            .open("/dev/full")
            .expect("there is one")
    };
    let expected = failed("cannot write the results: the disk is full");
    day.put("events", b"class,length\n10,1\n");
    let before = day.get("state");
    for call in [
        &["events", "state", "events"][..],
        &["fresh", "table", "other"],
        &["report", "state"],
        &["events", "table", "events"],
    ] {
        let said = by(day.command(call).stdout(full()));
        assert_eq!(said, expected, "{call:?}");
    }
    // The heading comes before the events, and what is fresh before its answer.
    assert_eq!(day.get("state"), before);
    assert_eq!(day.get("other"), before);
    let sentence = by(day.command(&["events", "state", "missing"]).stderr(full()));
    assert_eq!((sentence.status, &sentence.error[..]), (Some(2), ""));
}
