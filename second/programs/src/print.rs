//! The answer and the results as text.

use crate::answer::Answer;
use crate::csv::{report_text, LINE_END};

/// Which numbers an answer's line has.
#[derive(Clone, Copy)]
pub enum Form {
    /// The four of an answer.
    Run,
    /// These, and the packet that was put on the line.
    Live,
}

/// The heading of answers.
pub fn heading_text(form: Form) -> String {
    let heading = match form {
        Form::Run => "answer,place,second,count",
        Form::Live => "answer,place,second,count,packet",
    };
    format!("{heading}{LINE_END}")
}

/// A line with these numbers.
pub fn line_text<const COUNT: usize>(numbers: [u32; COUNT]) -> String {
    let numbers = numbers.map(|number| number.to_string());
    format!("{}{LINE_END}", numbers.join(","))
}

/// The heading and a line for each answer, none of which puts a packet on the line by itself.
pub fn answers_text<'a>(form: Form, answers: impl IntoIterator<Item = &'a Answer>) -> String {
    let line = |answer: &Answer| match (form, answer.numbers()) {
        (Form::Run, numbers) => line_text(numbers),
        (Form::Live, [number, place, second, count]) => {
            line_text([number, place, second, count, 0])
        }
    };
    heading_text(form) + &answers.into_iter().map(line).collect::<String>()
}

/// The order, then the report with the lags.
pub fn results_text(order: &[u32], identifiers: &[u32], report: &[u64], lags: &[i64]) -> String {
    let mut text = format!("order{LINE_END}");
    for place in order {
        text.push_str(&line_text([*place]));
    }
    text + &report_text(identifiers, report, lags)
}
