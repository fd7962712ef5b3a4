//! The answers that are counted: those with a number, and what else a program prints.

/// The numbers of answers: those of a run up to 15, of a capture, and of a table's text.
const NUMBERS: [u32; 33] = [
    0, 1, 2, 3, 4, 5, 6, 7, 8, 9, 10, 11, 12, 13, 14, 15, 30, 31, 32, 33, 34, 35, 36, 37, 38, 40,
    41, 42, 43, 44, 45, 46, 47,
];

/// What is counted as an answer: `NUMBERS`, then `cannot read`, a sheet, a sheet with a number that
/// outgrows, and a tree.
pub const ANSWERS: usize = NUMBERS.len() + 4;
pub const CANNOT_READ: usize = NUMBERS.len();
pub const SHEET: usize = NUMBERS.len() + 1;
pub const OUTGROWN: usize = NUMBERS.len() + 2;
pub const TREE: usize = NUMBERS.len() + 3;

/// What an answer is, for a reader.
pub fn answer_name(answer: usize) -> String {
    match answer {
        CANNOT_READ => "cannot read".to_string(),
        SHEET => "sheet".to_string(),
        OUTGROWN => "sheet that outgrows".to_string(),
        TREE => "tree".to_string(),
        _ => format!("answer {}", NUMBERS[answer]),
    }
}

/// The place among the answers of the one with this number; nothing if there is none.
pub fn answer_with(number: u32) -> Option<usize> {
    NUMBERS.iter().position(|known| *known == number)
}

#[cfg(test)]
mod tests {
    use super::*;

    #[test]
    fn every_answer_has_a_name_of_its_own() {
        let mut names: Vec<String> = (0..ANSWERS).map(answer_name).collect();
        names.sort();
        names.dedup();
        assert_eq!(names.len(), ANSWERS);
    }

    #[test]
    fn numbers_are_found() {
        for number in [0, 1, 15, 30, 38, 40, 47] {
            let name = answer_with(number).map(answer_name);
            assert_eq!(name, Some(format!("answer {number}")));
        }
        for number in [16, 29, 39, 48, u32::MAX] {
            assert_eq!(answer_with(number), None);
        }
    }
}
