//! The times as Markdown tables.

use crate::inputs::{Input, Part, Shown};
use crate::timing::ENGINES;
use trials::Times;

/// The times of each engine over one list, in seconds.
pub type Measured = [Times; 3];

pub fn print_part(part: &Part, measured: &[Measured]) {
    println!("\n{}\n", part.title);
    print_times(&part.inputs, measured);
    if part.shown == Shown::Choices {
        print_choices(&part.inputs, measured);
    }
}

fn print_times(inputs: &[Input], measured: &[Measured]) {
    let [plain, others @ ..] = ENGINES.map(|(name, _)| name);
    let times = ENGINES.map(|(name, _)| format!("{name} best | {name} median"));
    let ratios = others.map(|name| format!("{name} to {plain}, bests | medians"));
    println!("| List | {} | {} |", times.join(" | "), ratios.join(" | "));
    println!("|---|{}", "--:|".repeat(2 * (times.len() + ratios.len())));
    for (input, measured) in inputs.iter().zip(measured) {
        let times = measured.each_ref().map(|times| {
            let [best, median] = [times.best(), times.median()].map(|time| time * 1e3);
            format!("{best:.3} | {median:.3}")
        });
        let [plain, others @ ..] = measured;
        let ratios = others.each_ref().map(|times| {
            let best = times.best() / plain.best();
            let median = times.median() / plain.median();
            format!("{best:.2} | {median:.2}")
        });
        let line = [times.join(" | "), ratios.join(" | ")].join(" | ");
        println!("| {} | {line} |", input.name);
    }
}

/// A run's best time for each choice that it makes, and what the doubled number of children adds.
fn print_choices(inputs: &[Input], measured: &[Measured]) {
    let names = ENGINES.map(|(name, _)| name);
    let added = names.map(|name| format!("added, {name}"));
    println!("\nThe same for each choice, in nanoseconds, with what it adds to the line above:\n");
    println!(
        "| Children | Choices | {} | {} |",
        names.join(" | "),
        added.join(" | ")
    );
    println!("|---|{}", "--:|".repeat(1 + 2 * names.len()));
    let mut before: Option<[f64; 3]> = None;
    for (input, measured) in inputs.iter().zip(measured) {
        let choices = choices(input);
        let each = measured
            .each_ref()
            .map(|times| times.best() * 1e9 / choices as f64);
        let shown = each.map(|time| format!("{time:.1}")).join(" | ");
        let added = match before {
            None => ["", "", ""].map(str::to_string),
            Some(before) => [0, 1, 2].map(|at| format!("{:.1}", each[at] - before[at])),
        };
        println!(
            "| {} | {choices} | {shown} | {} |",
            input.name,
            added.join(" | ")
        );
        before = Some(each);
    }
}

/// How many choices a run over the list makes.
fn choices(input: &Input) -> u64 {
    input
        .case()
        .inside()
        .map_or(0, |inside| inside.choices.made)
}
