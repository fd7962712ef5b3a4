//! Events by a pipe: each is answered, and kept, before the next one comes.

use std::io::{BufRead, BufReader, Read, Write};
use std::process::{Child, ChildStdin, ChildStdout, Stdio};

use crate::common::days::{Day, HEADING};
use crate::common::files::with_cr;
use crate::common::{Event, FINISH, P4_ROWS};

struct Talk {
    child: Child,
    input: ChildStdin,
    output: BufReader<ChildStdout>,
}

impl Talk {
    fn new(day: &Day) -> Talk {
        let mut child = day
            .command(&["events", "state", "-"])
            .stdin(Stdio::piped())
            .stdout(Stdio::piped())
            .stderr(Stdio::piped())
            .spawn()
            .expect("the program can be started");
        let input = child.stdin.take().expect("it has an input");
        let output = BufReader::new(child.stdout.take().expect("it has an output"));
        Talk {
            child,
            input,
            output,
        }
    }

    fn send(&mut self, bytes: &str) {
        let sent = self.input.write_all(bytes.as_bytes());
        sent.expect("the program reads");
    }

    fn line(&mut self) -> String {
        let mut line = String::new();
        self.output.read_line(&mut line).expect("it answers");
        line
    }

    /// The rest of both channels, and the status.
    fn end(mut self) -> (String, String, Option<i32>) {
        drop(self.input);
        let [mut output, mut error] = [String::new(), String::new()];
        let all = self.output.read_to_string(&mut output);
        all.expect("it answers");
        let mut said = self.child.stderr.take().expect("it has an error output");
        said.read_to_string(&mut error).expect("it answers");
        let status = self.child.wait().expect("it ends");
        (output, error, status.code())
    }
}

#[test]
fn the_heading_comes_before_anything() {
    let day = Day::fresh("stream_heading", &P4_ROWS);
    let mut talk = Talk::new(&day);
    assert_eq!(talk.line(), with_cr(HEADING));
    talk.send("class,length\n");
    assert_eq!(talk.end(), (String::new(), String::new(), Some(0)));
}

#[test]
fn each_line_is_answered_and_kept_before_the_next() {
    let [day, other] = ["stream_each", "stream_other"].map(|test| Day::fresh(test, &P4_ROWS));
    let mut talk = Talk::new(&day);
    talk.line();
    talk.send("class,length\r\n");
    let events: [(Event, &str); 7] = [
        ((4, 100), "0,0,0,1,0\r\n"),
        ((3, 200), "0,0,0,0,0\r\n"),
        ((2, 200), "12,0,0,0,0\r\n"),
        (FINISH, "0,0,0,1,1\r\n"),
        ((5, 300), "0,0,0,0,0\r\n"),
        (FINISH, "0,0,0,1,3\r\n"),
        ((0, 7), "13,0,0,0,0\r\n"),
    ];
    for ((class, length), answer) in events {
        talk.send(&format!("{class},{length}\n"));
        assert_eq!(talk.line(), answer);
        other.events(&format!("{class},{length}\n"));
        assert_eq!(day.get("state"), other.get("state"));
    }
    let sentences = "\
refused 12 in standard input: line 4 is for class 2, which has classes below it; name a class with no class below it.
refused 13 in standard input: line 8 is a finish with length 7; a finish has length 0.
";
    assert_eq!(talk.end(), (String::new(), sentences.to_string(), Some(1)));
}

#[test]
fn a_line_may_come_in_pieces() {
    let day = Day::fresh("stream_pieces", &P4_ROWS);
    let mut talk = Talk::new(&day);
    talk.line();
    for piece in ["cla", "ss,length", "\r", "\n4,", "1", "00", "\n3,1\n5"] {
        talk.send(piece);
        std::thread::sleep(std::time::Duration::from_millis(5));
    }
    assert_eq!(talk.line(), "0,0,0,1,0\r\n");
    assert_eq!(talk.line(), "0,0,0,0,0\r\n");
    talk.send(",1\n0,0");
    assert_eq!(talk.line(), "0,0,0,0,0\r\n");
    let sentence = "cannot read standard input, line 5: the line has no end\n";
    assert_eq!(talk.end(), (String::new(), sentence.to_string(), Some(2)));
}

/// A fault ends it, with the pipe still open.
#[test]
fn nothing_is_read_after_a_fault() {
    let day = Day::fresh("stream_fault", &P4_ROWS);
    let mut talk = Talk::new(&day);
    talk.line();
    talk.send("class,length\n4,1\nx\n");
    assert_eq!(talk.line(), "0,0,0,1,0\r\n");
    assert_eq!(talk.line(), "");
    let sentence = "cannot read standard input, line 3: 2 numbers are wanted\n";
    assert_eq!(talk.end(), (String::new(), sentence.to_string(), Some(2)));
}

/// What was taken is kept, and what is said of it nobody reads.
#[test]
fn a_reader_may_leave() {
    let [day, other] = ["stream_left", "stream_stayed"].map(|test| Day::fresh(test, &P4_ROWS));
    let mut talk = Talk::new(&day);
    talk.line();
    let Talk {
        mut child,
        mut input,
        output,
    } = talk;
    drop(output);
    let sent = input.write_all(b"class,length\n4,1\n7,7\n");
    sent.expect("the program reads");
    let mut error = String::new();
    let mut said = child.stderr.take().expect("it has an error output");
    said.read_to_string(&mut error).expect("it answers");
    let status = child.wait().expect("it ends");
    assert_eq!((&error[..], status.code()), ("", Some(2)));
    other.events("4,1\n");
    assert_eq!(day.get("state"), other.get("state"));
}
