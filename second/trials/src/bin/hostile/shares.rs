//! Every share up to the whole and some way past it, and shares far beyond that are one of these
//! in their low bits.

use second::WHOLE;
use trials::{Case, Event, Row, FINISH};

/// Past the whole, past the next number that divides 705,600 (882), and past 14 times 64.
const LAST: u32 = 900;

/// Each comes twice in a row. Under every share that rounds, start and finish at the end tell
/// how it was done.
const LENGTHS: [u32; 7] = [1, 2, 7, 16, 100, 839, 9000];

/// Each share of a class by itself, with packets that finish.
pub fn all_shares() -> Vec<(String, Case)> {
    let lows = [0, 1, 11, WHOLE, WHOLE + 1];
    let far = (10..32).flat_map(|bit| lows.map(|low| (1 << bit) + low));
    (0..=LAST)
        .chain(far)
        .chain([WHOLE * WHOLE, u32::MAX - 1, u32::MAX])
        .map(|share| (share.to_string(), with_share(share)))
        .collect()
}

fn with_share(share: u32) -> Case {
    let row = |identifier, parent, share| Row {
        identifier,
        parent,
        share,
    };
    let packet = |length| Event { class: 10, length };
    let packets = LENGTHS.into_iter().flat_map(|length| [packet(length); 2]);
    Case {
        rows: vec![row(1, 0, 0), row(10, 1, share)],
        events: packets.chain([FINISH; 2 * LENGTHS.len()]).collect(),
    }
}

#[cfg(test)]
mod tests {
    use super::*;
    use second::{is_exact, Room};
    use trials::WRONG_CHARGES;

    #[test]
    fn all_shares_from_1_to_840_are_accepted_and_all_others_refused() {
        let answers = all_shares().into_iter().map(|(_, case)| case.answer());
        let (accepted, refused): (Vec<_>, Vec<_>) = answers.partition(|a| a.number == 0);
        assert_eq!((accepted.len(), refused.len()), (840, 174));
        assert!(refused.iter().all(|a| (a.number, a.place) == (8, 1)));
    }

    #[test]
    fn every_wrong_charge_is_seen_under_every_share_that_rounds() {
        for share in (1..=WHOLE).filter(|share| !is_exact(*share)) {
            let case = with_share(share);
            let mut room = Room::new(case.rows.len(), case.events.len());
            case.run(&mut room);
            for (name, wrong) in WRONG_CHARGES {
                let finish: u64 = LENGTHS
                    .iter()
                    .map(|length| wrong(&[*length; 2], share))
                    .sum();
                // Under these a charge is whole or ends in a half, which is rounded up as well.
                let halves = name == "to the nearest" && [128, 384, 640].contains(&share);
                assert_eq!(finish == room.report[7], halves, "{name}, {share}");
            }
        }
    }
}
