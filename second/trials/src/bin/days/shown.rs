//! What is shown of a difference.

use std::path::Path;

use crate::pair::Contents;
use crate::states::words_of;
use trials::Printed;

/// Bytes of a stream that are shown, and words of a state.
const MOST_BYTES: usize = 300;
const MOST_WORDS: usize = 12;

/// Where what was printed differs, or how it ended where it does not.
pub fn differing_prints(proved: &Printed, second: &Printed) -> String {
    let output = first_difference(&proved.output, &second.output);
    let error = first_difference(&proved.error, &second.error);
    let sides = [("proved", proved), ("second", second)];
    sides
        .map(|(name, side)| format!("--- {name} {}", printed_from(side, output, error)))
        .concat()
}

/// What was printed, from its beginning.
pub fn whole_print(printed: &Printed) -> String {
    printed_from(printed, 0, 0)
}

fn printed_from(printed: &Printed, output: usize, error: usize) -> String {
    format!(
        "ended with {:?}\nstandard output, from byte {output}: {}\n\
         standard error, from byte {error}: {}\n",
        printed.end,
        from(&printed.output, output),
        from(&printed.error, error),
    )
}

/// The place of the first byte that differs, or 0.
fn first_difference(one: &[u8], other: &[u8]) -> usize {
    let alike = one.iter().zip(other).take_while(|(a, b)| a == b).count();
    let differ = one.len() != other.len() || alike < one.len();
    // From the beginning of the line.
    let begins = one[..alike].iter().rposition(|byte| *byte == b'\n');
    if differ {
        begins.map_or(0, |end| end + 1)
    } else {
        0
    }
}

fn from(bytes: &[u8], place: usize) -> String {
    let rest = &bytes[place.min(bytes.len())..];
    let shown = rest[..rest.len().min(MOST_BYTES)].escape_ascii();
    format!("{shown} ({} bytes)", bytes.len())
}

/// The files that differ, states by their words.
pub fn differing_files(proved: &Contents, second: &Contents) -> String {
    let names = proved.keys().chain(second.keys());
    let mut text = String::new();
    for name in names {
        let [one, other] = [proved, second].map(|contents| contents.get(name));
        if one != other {
            text += &differing_file(name, one, other);
        }
    }
    text
}

type Content<'a> = Option<&'a Option<Vec<u8>>>;

fn differing_file(name: &Path, one: Content, other: Content) -> String {
    let mut text = format!("--- the file {} differs\n", name.display());
    let (Some(Some(one)), Some(Some(other))) = (one, other) else {
        let is = |content: Content| match content {
            None => "not there".to_string(),
            Some(None) => "no file that can be read".to_string(),
            Some(Some(bytes)) => format!("a file of {} bytes", bytes.len()),
        };
        return format!("{text}proved: {}, second: {}\n", is(one), is(other));
    };
    match [words_of(one), words_of(other)] {
        [Some(one), Some(other)] => {
            let pairs = one.into_iter().zip(other).enumerate();
            let differ = pairs.filter(|(_, (one, other))| one != other);
            for (place, (one, other)) in differ.take(MOST_WORDS) {
                text += &format!("word {place}: proved {one}, second {other}\n");
            }
        }
        _ => {
            let place = first_difference(one, other);
            let [one, other] = [one, other].map(|bytes| from(bytes, place));
            text += &format!("from byte {place}: proved {one}, second {other}\n");
        }
    }
    text
}

#[cfg(test)]
mod tests {
    use std::path::PathBuf;

    use super::*;
    use trials::End;

    fn printed(output: &str, error: &str) -> Printed {
        Printed {
            output: output.as_bytes().to_vec(),
            error: error.as_bytes().to_vec(),
            end: End::Status(1),
        }
    }

    #[test]
    fn streams_are_shown_from_the_line_that_differs() {
        let text = differing_prints(&printed("a\nb\nc\n", "x\n"), &printed("a\nb\nd", "x\n"));
        assert!(text.contains("from byte 4: c\\n (6 bytes)"), "{text}");
        assert!(text.contains("from byte 4: d (5 bytes)"), "{text}");
        assert!(text.contains("standard error, from byte 0: x\\n (2 bytes)"));
    }

    #[test]
    fn states_are_shown_by_their_words() {
        let state = |word: u8| {
            let mut bytes = vec![0; 55_296];
            bytes[16] = word;
            Contents::from([(PathBuf::from("state"), Some(bytes))])
        };
        let text = differing_files(&state(1), &state(2));
        assert!(text.contains("word 2: proved 1, second 2\n"), "{text}");
        let text = differing_files(&state(1), &Contents::new());
        assert!(text.contains("proved: a file of 55296 bytes, second: not there"));
    }
}
