//! The tree that is drawn of an accepted table, looked at by itself: the shares in it say all the rest.

use second::{MOST_DEPTH, WHOLE};

const HEADING: &str = "class                 share  % of parent  % of the line";

/// The heading, the line's own row, and classes each no more than a step deeper than the one above.
pub fn is_tree(text: &str) -> bool {
    let lines: Vec<&str> = text.split('\n').collect();
    let [HEADING, first, classes @ .., ""] = &lines[..] else {
        return false;
    };
    // From the line's child down to the class above.
    let mut shares = Vec::new();
    is_first(first) && !classes.is_empty() && classes.iter().all(|c| is_class(c, &mut shares))
}

fn is_first(line: &str) -> bool {
    let identifier = line.split(' ').next().and_then(number);
    identifier.is_some_and(|identifier| line == format!("{identifier:<22}{:>33}", "100.00"))
}

fn is_class(line: &str, shares: &mut Vec<u32>) -> bool {
    let words: Vec<&str> = line.split_whitespace().collect();
    let [Some(identifier), Some(share)] = [0, 1].map(|at| words.get(at).copied().and_then(number))
    else {
        return false;
    };
    let depth = (line.len() - line.trim_start_matches(' ').len()) / 2;
    let fits = (1..=MOST_DEPTH.min(shares.len() + 1)).contains(&depth);
    if !fits || !(1..=WHOLE).contains(&share) {
        return false;
    }
    shares.truncate(depth - 1);
    shares.push(share);
    let class = format!("{}{identifier}", "  ".repeat(depth));
    let [of_parent, of_line] = [&shares[depth - 1..], &shares[..]].map(per_cent);
    line == format!("{class:22}{share:>5}  {of_parent:>11}  {of_line:>13}")
}

/// The number, if it is written as numbers are.
fn number(text: &str) -> Option<u32> {
    let number: u32 = text.parse().ok()?;
    (number.to_string() == text).then_some(number)
}

/// What is left of 100 below classes of these shares, cut after two decimals.
fn per_cent(shares: &[u32]) -> String {
    let above: u128 = shares.iter().map(|share| u128::from(*share)).product();
    let below: u128 = shares.iter().map(|_| u128::from(WHOLE)).product();
    match 10_000 * above / below {
        0 => "< 0.01".to_string(),
        cut => format!("{}.{:02}", cut / 100, cut % 100),
    }
}

#[cfg(test)]
mod tests {
    use super::*;

    const TREE: &str = "\
class                 share  % of parent  % of the line
1                                                100.00
  100                   420        50.00          50.00
    110                 630        75.00          37.50
    65535                 1         0.11           0.05
  7                     840       100.00         100.00
    8                     1         0.11           0.11
      9                   1         0.11         < 0.01
";

    #[test]
    fn a_tree_is_as_its_shares_say() {
        assert!(is_tree(TREE));
        let lines: Vec<&str> = TREE.split_inclusive('\n').collect();
        for line in 0..lines.len() {
            let mut fewer = lines.clone();
            fewer.remove(line);
            // Whether a class without others below it is missing nobody can tell.
            let whole = [3, 4, 7].contains(&line);
            assert_eq!(is_tree(&fewer.concat()), whole, "without {line}");
        }
        assert!(!is_tree("") && !is_tree(&lines[..2].concat()));
    }

    /// What may be an identifier is one, so the column of classes is left out below the heading.
    #[test]
    fn every_byte_counts() {
        for (line, text) in TREE.split_inclusive('\n').enumerate() {
            let before = TREE.find(text).expect("it is there");
            for column in if line == 0 { 0 } else { 22 }..text.len() {
                for other in b" 3\n\r.<" {
                    let mut bytes = TREE.as_bytes().to_vec();
                    let alike = std::mem::replace(&mut bytes[before + column], *other) == *other;
                    let text = String::from_utf8(bytes).expect("it is text");
                    assert_eq!(is_tree(&text), alike, "{line} {column} {other}");
                }
            }
        }
        assert!(!is_tree(&TREE.replace('\n', "\r\n")) && !is_tree(TREE.trim_end()));
        assert!(!is_tree(&format!("{TREE}\n")) && !is_tree(&TREE.replace(".50\n", ".50 \n")));
        for (from, to) in [
            ("\n1 ", "\n01"),
            ("\n  7  ", "\n   7 "),
            ("\n  7 ", "\n  7x"),
        ] {
            assert!(TREE.contains(from) && !is_tree(&TREE.replace(from, to)));
        }
    }

    #[test]
    fn parts_are_cut_and_the_least_are_not_shown() {
        assert_eq!(per_cent(&[280]), "33.33");
        assert_eq!(per_cent(&[560]), "66.66");
        assert_eq!(per_cent(&[839; 8]), "99.05");
        assert_eq!(per_cent(&[840; 8]), "100.00");
        assert_eq!(per_cent(&[84; 4]), "0.01");
        assert_eq!(per_cent(&[84, 84, 83, 84]), "< 0.01");
        assert_eq!(per_cent(&[1; 8]), "< 0.01");
    }
}
