//! What the ways are asked: lists over flat tables.

use trials::{steady_case, Case};

/// The lists, and what they are.
pub fn lists() -> [(&'static str, Case); 5] {
    [
        ("255 classes, 65,536 events", steady_case(&[255], 65_536)),
        ("16 classes, 65,536 events", steady_case(&[16], 65_536)),
        ("1 class, 65,536 events", steady_case(&[1], 65_536)),
        ("255 classes, 1,024 events", steady_case(&[255], 1024)),
        ("255 classes, 1 event", steady_case(&[255], 1)),
    ]
}

/// The row of an event's class, 0 for a finish; the largest number where the list is refused.
pub fn row(case: &Case, event: usize) -> u32 {
    let class = case.events[event].class;
    let place = case.rows.iter().position(|row| row.identifier == class);
    match case.answer().number {
        0 => place.unwrap_or(0) as u32,
        _ => u32::MAX,
    }
}

#[cfg(test)]
mod tests {
    use super::*;

    #[test]
    fn rows_of_events_are_found() {
        let [(_, case), ..] = lists();
        assert_eq!([0, 1, 65_535].map(|event| row(&case, event)), [1, 2, 0]);
        for (name, case) in lists() {
            assert_eq!(case.answer().number, 0, "{name}");
        }
    }
}
