//! Lists in which a tick of rounding decides who goes first, or makes finishes equal.

use trials::{rounding_cases, Case, Random};

const RACES: u64 = 8;

/// Shares above the classes that race, down to the greatest depth.
const ABOVE: [&[u32]; 2] = [&[], &[756, 11, 839, 1, 840, 13, 527]];

/// Each list and what it is.
pub fn close_finishes() -> Vec<(String, Case)> {
    let lists = |race| {
        ABOVE.into_iter().flat_map(move |above| {
            let cases = rounding_cases(above, &mut Random::new(756, race));
            let name = format!("race {race} below {} classes", above.len());
            (1..)
                .zip(cases)
                .map(move |(list, case)| (format!("{name}, {list}"), case))
        })
    };
    (0..RACES).flat_map(lists).collect()
}

#[cfg(test)]
mod tests {
    use super::*;

    #[test]
    fn finishes_are_equal_in_some_races_and_not_in_others() {
        let lists = close_finishes();
        assert_eq!(lists.len() as u64, RACES * 2 * 4);
        // Five packets race; what comes after them is left out.
        let equal = |(_, case): &&(String, Case)| {
            let race = Case {
                rows: case.rows.clone(),
                events: case.events[..10].to_vec(),
            };
            let inside = race.inside().expect("the list is accepted");
            inside.choices.by_place > 0
        };
        let count = lists.iter().filter(equal).count();
        assert!((8..=56).contains(&count), "{count}");
    }
}
