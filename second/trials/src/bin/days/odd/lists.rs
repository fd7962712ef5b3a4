//! Lists that cannot be read, are long, or meet a state at its limits.

use std::path::Path;

use crate::day::{LIST, STATE, TABLE};
use crate::odd::{unreadable, NO_FILE};
use crate::pair::{wrong, Pair, Tried};
use crate::shown::whole_print;
use crate::states::{bytes_of, raise, words_of};
use crate::tally::numbers;
use second::live::MOST_HELD;
use trials::Fed;

pub fn unread_lists(pair: &mut Pair) -> Tried<()> {
    let before = pair.get(STATE)?;
    for (name, why) in unreadable(pair, &[("state/list", NO_FILE)])? {
        let said = format!("cannot read {name}: {why}");
        pair.wants(&["events", STATE, &name], Some(""), &said)?;
    }
    let arguments = ["events", STATE, "-"];
    let printed = pair.ask_fed(&arguments, |folder| Fed::File(folder.join("folder")))?;
    let said = "cannot read standard input: it is a folder\n";
    pair.is(&arguments, &printed, Some(""), said)?;
    pair.kept("a list that cannot be read", &before)
}

/// Both say this of the list, of which no event is taken, and keep the state.
fn faulty(pair: &mut Pair, list: &[u8], why: &str) -> Tried<()> {
    let before = pair.get(STATE)?;
    pair.put(LIST, list)?;
    let said = format!("cannot read {LIST}, {why}\n");
    pair.wants(&["events", STATE, LIST], Some(""), &said)?;
    let arguments = ["events", STATE, "-"];
    let printed = pair.ask_fed(&arguments, |_| Fed::Pipe(list.to_vec()))?;
    let said = format!("cannot read standard input, {why}\n");
    pair.is(&arguments, &printed, Some(""), &said)?;
    pair.kept("a faulty list", &before)
}

pub fn headings(pair: &mut Pair) -> Tried<()> {
    for list in [
        &b""[..],
        b"10,1\n",
        b"\n",
        b"\r\n",
        b"\nclass,length\n10,1\n",
        b"Class,length\n10,1\n",
        b"class,length \n",
        b"class,length\r\r\n",
        b"\xef\xbb\xbfclass,length\n",
        b"identifier,parent,share\r\n",
        b"\0\n",
    ] {
        faulty(pair, list, "line 1: the heading must be class,length")?;
    }
    for list in [&b"class,length"[..], b"class,length\r", b"c", b"\0"] {
        faulty(pair, list, "line 1: the line has no end")?;
    }
    for list in [&b"class,length\n"[..], b"class,length\r\n"] {
        pair.put(LIST, list)?;
        pair.wants(&["events", STATE, LIST], Some(""), "")?;
    }
    Ok(())
}

pub fn line_ends(pair: &mut Pair) -> Tried<()> {
    let answers = "0,0,0,1,0\n0,0,0,0,0\n0,0,0,1,1\n0,0,0,0,0\n14,0,0,0,0\n";
    let said = "refused 14 in events.csv: line 6 is a finish while the line is idle; \
                take it out or put an arrival before it.\n";
    for list in [
        "class,length\n10,100\n20,9000\n0,0\n0,0\n0,0\n",
        "class,length\r\n10,100\r\n20,9000\r\n0,0\r\n0,0\r\n0,0\r\n",
        "class,length\n10,100\r\n20,9000\n0,0\r\n0,0\n0,0\r\n",
        "class,length\r\n0010,00100\n20,0000000000000000000009000\n00,0\n0,00\r\n000,000\n",
    ] {
        pair.ask(&["fresh", TABLE, STATE])?;
        pair.put(LIST, list.as_bytes())?;
        pair.wants(&["events", STATE, LIST], Some(answers), said)?;
    }
    Ok(())
}

/// With 1,024 packets held, an arrival gets 21 where no more are counted, and 22 before.
pub fn neither_room_nor_count(pair: &mut Pair) -> Tried<()> {
    let full = format!("class,length\n{}", "10,9\n".repeat(MOST_HELD));
    pair.put(LIST, full.as_bytes())?;
    pair.ask(&["events", STATE, LIST])?;
    let state = pair.get(STATE)?;
    let list = b"class,length\n20,1\n7,7\n1,1\n20,0\n0,1\n0,0\n20,1\n20,1\n";
    pair.put(LIST, list)?;
    for (to_come, wanted) in [
        (0, [21, 11, 12, 13, 13, 0, 21, 21]),
        (1, [22, 11, 12, 13, 13, 0, 0, 21]),
        (2, [22, 11, 12, 13, 13, 0, 0, 22]),
    ] {
        let mut words = words_of(&state).unwrap_or_default();
        raise(&mut words, to_come, to_come == 1);
        pair.put(STATE, &bytes_of(&words))?;
        let printed = pair.ask(&["events", STATE, LIST])?;
        if numbers(&printed.output) != wanted {
            let asked = format!("live events, with {to_come} packets to come");
            return wrong(&asked, &whole_print(&printed));
        }
    }
    Ok(())
}

/// It is read in many pieces, whose ends fall into lines.
pub fn long_list(pair: &mut Pair) -> Tried<()> {
    let mut list = String::from("class,length\n");
    for round in 0..10_000 {
        let length = 1 + round * 7919 % 9_000;
        list += &format!("10,{length}\r\n20,9000\n0,0\n0,0\n7,7\n30,{length}\n0,0\n");
    }
    pair.put(LIST, list.as_bytes())?;
    pair.ask(&["events", STATE, LIST])?;
    pair.ask(&["report", STATE])?;
    // Pieces of it, by a pipe, and one that ends in a line.
    let some = &list.as_bytes()[..100_000];
    let fed = |_: &Path| Fed::Pipe(some.to_vec());
    pair.ask_fed(&["events", STATE, "-"], fed)?;
    pair.put(LIST, some)?;
    pair.ask(&["events", STATE, LIST]).map(|_| ())
}

pub fn refused_list(pair: &mut Pair) -> Tried<()> {
    let before = pair.get(STATE)?;
    let list = format!(
        "class,length\n{}",
        "0,0\n1,1\n7,7\n10,0\n0,9\n".repeat(4_000)
    );
    pair.put(LIST, list.as_bytes())?;
    pair.ask(&["events", STATE, LIST])?;
    pair.kept("a list with refusals alone", &before)
}

pub fn long_lines(pair: &mut Pair) -> Tried<()> {
    let zeros = "0".repeat(300_000);
    pair.put(
        LIST,
        format!("class,length\n{zeros}10,{zeros}100\n0,{zeros}\n").as_bytes(),
    )?;
    pair.wants(&["events", STATE, LIST], Some("0,0,0,1,0\n0,0,0,0,0\n"), "")?;
    let digits = "9".repeat(300_000);
    let over = "line 2: field 2 is over 4294967295";
    faulty(
        pair,
        format!("class,length\n10,{digits}\n").as_bytes(),
        over,
    )?;
    let wanted = "line 2: 2 numbers are wanted";
    faulty(pair, format!("class,length\n{digits}\n").as_bytes(), wanted)?;
    let commas = ",".repeat(300_000);
    faulty(pair, format!("class,length\n{commas}\n").as_bytes(), wanted)?;
    let heading = "line 1: the heading must be class,length";
    faulty(pair, format!("{digits}\n10,1\n").as_bytes(), heading)?;
    faulty(pair, digits.as_bytes(), "line 1: the line has no end")
}
