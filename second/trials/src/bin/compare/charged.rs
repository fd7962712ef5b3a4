//! Tells under which shares reports show how a charge was rounded.

use std::collections::BTreeSet;
use std::ops::AddAssign;

use second::{is_exact, Room, REPORT_WIDTH, UNIT_COST, WHOLE};
use trials::Case;

/// The shares under which the last charge of a row was rounded, or never is.
#[derive(Clone, Debug, Default, PartialEq, Eq)]
pub struct Charged(BTreeSet<u32>);

impl Charged {
    pub fn add_accepted(&mut self, case: &Case) {
        let mut room = Room::new(case.rows.len(), case.events.len());
        case.run(&mut room);
        let parts = room.report.chunks_exact(REPORT_WIDTH);
        let shown = |share: u32, part: &[u64]| {
            // A row's finish is its last start and one charge more.
            let charge = part[2] - part[1];
            charge > 0 && (is_exact(share) || is_rounded(charge, share))
        };
        let rows = case.rows.iter().zip(parts).skip(1);
        let shares = rows.filter(|(row, part)| shown(row.share, part));
        self.0.extend(shares.map(|(row, _)| row.share));
    }

    pub fn text(&self) -> String {
        format!("shares charged: {} of {WHOLE}\n", self.0.len())
    }

    /// A sentence on the first share that is missing.
    pub fn shortages(&self) -> Vec<String> {
        let missing = (1..=WHOLE).find(|share| !self.0.contains(share));
        let said = |share| format!("no report shows what is charged under share {share}");
        missing.map(said).into_iter().collect()
    }
}

/// No whole number of bytes costs just this much.
fn is_rounded(charge: u64, share: u32) -> bool {
    !(charge * u64::from(share)).is_multiple_of(u64::from(UNIT_COST))
}

impl AddAssign for Charged {
    fn add_assign(&mut self, more: Charged) {
        self.0.extend(more.0);
    }
}

#[cfg(test)]
mod tests {
    use super::*;
    use trials::{even_table, Event, FINISH};

    /// The shares that are seen where a class of this one has packets of these lengths.
    fn seen(share: u32, lengths: &[u32]) -> Vec<u32> {
        let mut rows = even_table(&[1, 1]);
        rows[2].share = share;
        let packets = lengths.iter().map(|length| Event {
            class: 3,
            length: *length,
        });
        let finishes = lengths.iter().map(|_| FINISH);
        let events = packets.chain(finishes).collect();
        let mut charged = Charged::default();
        charged.add_accepted(&Case { rows, events });
        charged.0.into_iter().collect()
    }

    #[test]
    fn a_share_is_seen_where_the_last_charge_is_rounded_or_never_is() {
        assert_eq!(seen(756, &[]), []);
        assert_eq!(seen(756, &[1]), [756, 840]);
        assert_eq!(seen(756, &[3]), [840]);
        assert_eq!(seen(756, &[1, 3]), [840]);
        assert_eq!(seen(756, &[3, 2]), [756, 840]);
        assert_eq!(seen(441, &[3]), [441, 840]);
    }

    #[test]
    fn the_first_missing_share_is_named() {
        let mut charged = Charged((1..=WHOLE).collect());
        assert_eq!(charged.text(), "shares charged: 840 of 840\n");
        assert!(charged.shortages().is_empty());
        charged.0.remove(&840);
        charged.0.remove(&11);
        let said = charged.shortages();
        assert_eq!(said.len(), 1);
        assert!(said[0].ends_with("under share 11"));
        charged += Charged([11, 840].into());
        assert!(charged.shortages().is_empty());
    }
}
