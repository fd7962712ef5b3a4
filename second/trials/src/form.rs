//! The forms that whatever a program prints must have, each with its channel and its status.

use crate::answers::{answer_with, CANNOT_READ, OUTGROWN, SHEET, TREE};
use crate::tree::is_tree;
use crate::{Asked, End, Printed, Program};

pub const ANSWER: &str = "answer,place,second,count";
const ROWS: &str = "identifier,bytes,start,finish,virtual,held,lag";
pub const PACKETS: &str = "packet,record,class,length,arrived,sent,finished";

/// The answer that is printed as it must be: results alone and status 0, refusals with their sentences
/// and 1, or one sentence alone and 2. Nothing if it is none of these, or not whole.
pub fn answer(asked: &Asked, printed: &Printed) -> Option<usize> {
    let Printed { output, error, end } = printed;
    match end {
        End::Status(2) => (output.is_empty() && asked.is_unread(error)).then_some(CANNOT_READ),
        _ if asked.miscalled().is_some() => None,
        End::Status(0) if error.is_empty() => results(asked.program, output),
        End::Status(1) => refusals(asked, output, error),
        _ => None,
    }
}

fn results(program: Program, output: &[u8]) -> Option<usize> {
    let text = std::str::from_utf8(output).ok()?;
    match program {
        Program::Replay | Program::Capture => is_run(program, text).then(|| answer_with(0))?,
        Program::Promise if text.contains(" = outgrown\n") => is_sheet(text).then_some(OUTGROWN),
        Program::Promise => is_sheet(text).then_some(SHEET),
        Program::Table => is_tree(text).then_some(TREE),
    }
}

/// The lines, each of which ends in CR LF.
fn cr_lf_lines(text: &str) -> Option<Vec<&str>> {
    Some(text.strip_suffix("\r\n")?.split("\r\n").collect())
}

fn is_run(program: Program, text: &str) -> bool {
    let lines = cr_lf_lines(text).unwrap_or_default();
    match (program, &lines[..]) {
        (Program::Replay, [ANSWER, answer, "order", rest @ ..]) => are_results(answer, rest),
        (Program::Capture, [ANSWER, answer, PACKETS, rest @ ..]) => are_packets(answer, rest),
        _ => false,
    }
}

/// So many numbers, the last of which may be below 0; no part of a line end is left in them.
fn are_numbers(line: &str, count: usize) -> bool {
    let is_number = |field: &str| field.parse::<i128>().is_ok_and(|n| n.to_string() == field);
    line.split(',').count() == count && line.split(',').all(is_number)
}

/// The place of the first number, if each refusal has its sentence and there is nothing else.
fn refusals(asked: &Asked, output: &[u8], error: &[u8]) -> Option<usize> {
    let lines = cr_lf_lines(std::str::from_utf8(output).ok()?)?;
    let [ANSWER, lines @ ..] = &lines[..] else {
        return None;
    };
    let found: Option<Vec<Refusal>> = lines.iter().map(|line| refusal(line)).collect();
    let found = found?;
    let mut said = error;
    for (number, _) in &found {
        said = after_sentence(asked, *number, said)?;
    }
    let (first, _) = found.first()?;
    let whole = said.is_empty() && can_be_together(asked.program, &found);
    whole.then(|| answer_with(*first))?
}

/// Its number and its place.
type Refusal = (u32, u32);

/// One that doubles an identifier alone has a second place, and none has a count.
fn refusal(line: &str) -> Option<Refusal> {
    let fields = line.split(',').map(str::parse::<u32>);
    let numbers: Vec<u32> = fields.collect::<Result<_, _>>().ok()?;
    match numbers[..] {
        [number, place, second, 0] if number != 0 && (second == 0 || number == 5) => {
            are_numbers(line, 4).then_some((number, place))
        }
        _ => None,
    }
}

/// Where there are several they are a table's own: of rows in order, then of their children.
fn can_be_together(program: Program, refusals: &[Refusal]) -> bool {
    let is_own = |(number, _): &Refusal| matches!(number, 4..=10 | 15);
    let order = |(number, place): Refusal| (number == 10, place);
    let ascend = refusals
        .windows(2)
        .all(|pair| order(pair[0]) < order(pair[1]));
    let several = program == Program::Table && ascend && refusals.iter().all(is_own);
    refusals.len() == 1 || several
}

/// What is said after the sentence of a refusal with this number, which names its file and is one
/// line.
fn after_sentence<'a>(asked: &Asked, number: u32, said: &'a [u8]) -> Option<&'a [u8]> {
    let rest = said.strip_prefix(&asked.refused(number)[..])?;
    let end = rest.iter().position(|byte| *byte == b'\n')?;
    let (sentence, after) = (&rest[..end], &rest[end + 1..]);
    (sentence.len() > 1 && sentence.ends_with(b".")).then_some(after)
}

/// How many packets went on the line.
fn count(answer: &str) -> Option<usize> {
    answer.strip_prefix("0,0,0,").and_then(|c| c.parse().ok())
}

fn are_packets(answer: &str, rest: &[&str]) -> bool {
    count(answer) == Some(rest.len()) && rest.iter().all(|packet| are_numbers(packet, 7))
}

fn are_results(answer: &str, rest: &[&str]) -> bool {
    let Some((order, rows)) = count(answer).and_then(|count| rest.split_at_checked(count)) else {
        return false;
    };
    let [heading, rows @ ..] = rows else {
        return false;
    };
    let packets = order.iter().all(|line| are_numbers(line, 1));
    packets && *heading == ROWS && rows.len() > 1 && rows.iter().all(|row| are_numbers(row, 7))
}

/// The lines of a sheet end in LF.
fn is_sheet(output: &str) -> bool {
    let Some(body) = output.strip_suffix('\n') else {
        return false;
    };
    let mut parts = body.split("\n\n");
    let first = parts.next().unwrap_or("");
    let is_class = |part: &str| {
        let mut lines: Vec<&str> = part.split('\n').collect();
        lines.pop_if(|line| line.starts_with("  without ticks, "));
        let last = lines.last().unwrap_or(&"");
        lines.len() > 3 && part.starts_with("class ") && last.starts_with("  the line")
    };
    let parts: Vec<&str> = parts.collect();
    let begins = first.starts_with("own bytes ") && !first.contains('\n');
    let plain = !output.contains('\r');
    plain && begins && !parts.is_empty() && parts.into_iter().all(is_class)
}

#[cfg(test)]
mod tests {
    use super::*;
    use crate::{answer_name, Fed};

    fn said(program: Program, status: i32, output: &str, error: &str) -> Option<String> {
        let arguments: &[&str] = match program {
            Program::Replay => &["t", "e"],
            Program::Promise => &["t", "1500"],
            Program::Capture => &["c", "t", "1", "2", "3", "4"],
            Program::Table => &["t"],
        };
        said_to(program, arguments, status, output, error)
    }

    fn said_to(
        program: Program,
        arguments: &[&str],
        status: i32,
        output: &str,
        error: &str,
    ) -> Option<String> {
        let asked = Asked {
            program,
            arguments: arguments.iter().map(Into::into).collect(),
            fed: Fed::Nothing,
        };
        let printed = Printed {
            output: output.as_bytes().to_vec(),
            error: error.as_bytes().to_vec(),
            end: End::Status(status),
        };
        answer(&asked, &printed).map(answer_name)
    }

    /// Whether these are results of a program that is done.
    fn whole(program: Program, output: &str) -> bool {
        let with = |status, error| said(program, status, output, error).is_some();
        let wrong = [(1, ""), (2, ""), (3, ""), (0, "x\n"), (0, "\n")];
        assert!(!wrong.into_iter().any(|(status, error)| with(status, error)));
        with(0, "")
    }

    #[test]
    fn a_sentence_stands_alone_on_standard_error_with_status_2() {
        let sentence = "cannot read e, line 1: ..\n";
        let name = said(Program::Replay, 2, "", sentence);
        assert_eq!(name.as_deref(), Some("cannot read"));
        for status in [0, 1, 3] {
            assert_eq!(said(Program::Replay, status, "", sentence), None);
        }
        let refused = format!("{ANSWER}\r\n5,2,1,0\r\n");
        for (output, error) in [
            (sentence, ""),
            (sentence, sentence),
            ("\n", sentence),
            (&refused, sentence),
            ("", "cannot read e, line 1: .."),
            ("", "cannot read e: ..\ncannot read e: ..\n"),
            ("", "refused 5 in t: ..\n"),
            ("", "cannot write the results: the disk is full\n"),
            ("", ""),
        ] {
            assert_eq!(said(Program::Replay, 2, output, error), None);
        }
    }

    #[test]
    fn a_refusal_has_its_sentence_with_its_file_and_status_1() {
        let output = "answer,place,second,count\r\n5,2,1,0\r\n";
        let sentence = "refused 5 in t: row 2 ..; mend it.\n";
        for program in [
            Program::Replay,
            Program::Promise,
            Program::Capture,
            Program::Table,
        ] {
            let name = said(program, 1, output, sentence);
            assert_eq!(name.as_deref(), Some("answer 5"));
            for status in [0, 2, 3] {
                assert_eq!(said(program, status, output, sentence), None);
            }
        }
        for error in [
            "",
            "refused 5: row 2 ..; mend it.\n",
            "refused 5 in e: row 2 ..; mend it.\n",
            "refused 5 in : row 2 ..; mend it.\n",
            "refused 4 in t: row 2 ..; mend it.\n",
            "refused 5 in t: row 2 ..; mend it.\r\n",
            "refused 5 in t: row 2 ..; mend it\n",
            "refused 5 in t: row 2 ..; mend it.",
            "refused 5 in t: .\n",
            "refused 5 in t: one.\nrefused 5 in t: two.\n",
            "x\nrefused 5 in t: one.\n",
        ] {
            assert_eq!(said(Program::Replay, 1, output, error), None, "{error}");
        }
        let both = format!("{output}{sentence}");
        assert_eq!(said(Program::Replay, 1, &both, ""), None);
        assert_eq!(said(Program::Replay, 1, "", sentence), None);
    }

    #[test]
    fn a_refusal_has_four_numbers_and_no_count() {
        let with = |line: &str, number: u32| {
            let output = format!("{ANSWER}\r\n{line}\r\n");
            let sentence = format!("refused {number} in t: ..; mend it.\n");
            said(Program::Replay, 1, &output, &sentence).is_some()
        };
        assert!(with("5,2,1,0", 5) && with("15,4294967295,0,0", 15));
        assert!(!with("5,2,1,1", 5) && !with("4,2,1,0", 4) && !with("0,0,0,0", 0));
        assert!(!with("5,2,1", 5) && !with("5,2,1,0,0", 5) && !with("5,02,1,0", 5));
        assert!(!with("5,+2,1,0", 5) && !with("5,-2,1,0", 5) && !with("16,2,0,0", 16));
        assert!(!with("5,2,1,0\n", 5) && !with("5,2,1,4294967296", 5));
    }

    #[test]
    fn a_table_has_several_refusals_in_order_and_a_run_one() {
        let with = |program, answers: &[(u32, u32)]| {
            let lines = answers
                .iter()
                .map(|(n, place)| format!("{n},{place},0,0\r\n"));
            let output = format!("{ANSWER}\r\n{}", lines.collect::<String>());
            let sentences = answers
                .iter()
                .map(|(n, _)| format!("refused {n} in t: ...\n"));
            said(program, 1, &output, &sentences.collect::<String>())
        };
        let listed = [(6, 0), (7, 1), (4, 3), (15, 9), (10, 0), (10, 2)];
        let name = with(Program::Table, &listed);
        assert_eq!(name.as_deref(), Some("answer 6"));
        assert_eq!(with(Program::Promise, &listed), None);
        assert_eq!(with(Program::Table, &[]), None);
        for wrong in [
            [(7, 1), (6, 0)],
            [(7, 1), (8, 1)],
            [(10, 0), (7, 1)],
            [(10, 2), (10, 2)],
            [(1, 0), (4, 1)],
            [(42, 3), (42, 4)],
            [(4, 1), (11, 2)],
        ] {
            assert_eq!(with(Program::Table, &wrong), None, "{wrong:?}");
        }
    }

    #[test]
    fn a_wrong_call_has_neither_results_nor_refusals() {
        let refused = format!("{ANSWER}\r\n5,2,1,0\r\n");
        let sentence = "refused 5 in -: row 2 ..; mend it.\n";
        let standard = "refused 5 in standard input: row 2 ..; mend it.\n";
        let run =
            format!("{ANSWER}\r\n0,0,0,0\r\norder\r\n{ROWS}\r\n1,0,0,0,0,0,0\r\n2,0,0,0,0,0,0\r\n");
        let answered = |arguments: &[&str]| {
            let said = |status, output: &str, error| {
                said_to(Program::Replay, arguments, status, output, error).is_some()
            };
            [
                said(0, &run, ""),
                said(1, &refused, standard),
                said(1, &refused, sentence),
            ]
        };
        assert_eq!(answered(&["-", "e"]), [true, true, false]);
        for wrong in [&["-"][..], &["-", "-"], &["-", "e", "e"]] {
            assert_eq!(answered(wrong), [false; 3]);
        }
    }

    #[test]
    fn there_are_as_many_sentences_as_refusals() {
        let output = format!("{ANSWER}\r\n7,1,0,0\r\n8,2,0,0\r\n");
        let with = |error: &str| said(Program::Table, 1, &output, error).is_some();
        let [one, other] = ["refused 7 in t: a.\n", "refused 8 in t: b.\n"];
        assert!(with(&format!("{one}{other}")));
        assert!(!with(one) && !with(other) && !with(&format!("{other}{one}")));
        assert!(!with(&format!("{one}{other}{other}")));
        assert!(!with(&format!("{one}\n{other}")));
    }

    #[test]
    fn results_have_all_their_lines() {
        let rows = "identifier,bytes,start,finish,virtual,held,lag\r\n\
                    1,0,0,0,0,0,0\r\n2,0,0,0,0,0,-5\r\n";
        let output = |count: usize, order: &str| {
            format!("answer,place,second,count\r\n0,0,0,{count}\r\norder\r\n{order}{rows}")
        };
        let whole = |output: &str| whole(Program::Replay, output);
        assert!(whole(&output(2, "0\r\n1\r\n")));
        assert!(!whole(&output(2, "0\r\n")));
        assert!(!whole(&output(1, "0\r\n1\r\n")));
        assert!(!whole(&output(1, "+1\r\n")));
        assert!(!whole(output(0, "").trim_end()));
        assert!(!whole(""));
    }

    #[test]
    fn a_capture_has_a_line_for_each_packet() {
        let output = |count: usize, lines: &str| {
            format!("{ANSWER}\r\n0,0,0,{count}\r\n{PACKETS}\r\n{lines}")
        };
        let line = "0,0,10,100,0,0,80\r\n";
        let whole = |output: &str| whole(Program::Capture, output);
        assert!(whole(&output(0, "")) && whole(&output(1, line)));
        assert!(!whole(&output(2, line)) && !whole(&output(0, line)));
        assert!(!whole(&output(1, "0,0,10,100,0,0\r\n")));
        assert!(!whole(&output(1, &line.replace('\r', ""))));
    }

    #[test]
    fn each_line_of_results_ends_in_cr_lf() {
        let rows = "1,0,0,0,0,0,0\r\n2,0,0,0,0,0,-5\r\n";
        let output = format!("{ANSWER}\r\n0,0,0,1\r\norder\r\n0\r\n{ROWS}\r\n{rows}");
        assert!(whole(Program::Replay, &output));
        for line in 0..output.matches("\r\n").count() {
            let (end, _) = output.match_indices("\r\n").nth(line).expect("it is there");
            for end_bytes in ["\n", "\r", "\r\r\n", "\n\r"] {
                let other = [&output[..end], end_bytes, &output[end + 2..]].concat();
                assert!(!whole(Program::Replay, &other));
            }
        }
    }

    #[test]
    fn each_program_has_its_own_results() {
        let tree = "class                 share  % of parent  % of the line\n\
                    1                                                100.00\n\
                    \u{20} 2                     840       100.00         100.00\n";
        let sheet = "own bytes 1\n\nclass 2 (row 1)\n  own bytes: 1\n  class 2: ..\n  the line\n";
        let [run, packets] = [
            format!("order\r\n{ROWS}\r\n1,0,0,0,0,0,0\r\n2,0,0,0,0,0,0"),
            PACKETS.into(),
        ]
        .map(|rest| format!("{ANSWER}\r\n0,0,0,0\r\n{rest}\r\n"));
        let all = [
            (Program::Replay, &run[..], "answer 0"),
            (Program::Promise, sheet, "sheet"),
            (Program::Capture, &packets, "answer 0"),
            (Program::Table, tree, "tree"),
        ];
        for (program, own, name) in all {
            assert_eq!(said(program, 0, own, "").as_deref(), Some(name));
            let others = all.iter().filter(|(other, ..)| *other != program);
            for (_, other, _) in others {
                assert_eq!(said(program, 0, other, ""), None);
            }
        }
        let outgrown = sheet.replace(": ..\n", ": .. = outgrown\n");
        let name = said(Program::Promise, 0, &outgrown, "");
        assert_eq!(name.as_deref(), Some("sheet that outgrows"));
    }

    #[test]
    fn a_sheet_has_a_number_for_each_class() {
        let first = "own bytes 1, largest packet 1, three packets 3\n";
        let class = "\nclass 2 (row 1)\n  own bytes: 1\n  class 2: ..\n  the line ..\n";
        let whole = |output: &str| whole(Program::Promise, output);
        assert!(whole(&format!("{first}{class}{class}")));
        let exact = format!("{class}  without ticks, ..\n");
        assert!(whole(&format!("{first}{exact}{class}{exact}")));
        assert!(!whole(&format!("{first}{exact}  without ticks, ..\n")));
        let alone = exact.replace("  the line ..\n", "");
        assert!(!whole(&format!("{first}{alone}")));
        assert!(!whole(first));
        let with_cr = format!("{first}{class}").replace('\n', "\r\n");
        assert!(!whole(&with_cr));
        assert!(!whole(&format!("{first}{class}\nclass 3 (row 2)\n")));
    }
}
