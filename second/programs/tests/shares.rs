//! The allowed shares, 1 to 840, and what a packet is charged under each.

use crate::common::{accepted, refused, ROOT};

#[test]
fn every_share_from_1_to_840_is_accepted_and_charged_just_enough() {
    for share in 1..=840 {
        for length in [1, 2, 3, 7, 100, 8999, 9000] {
            let outcome = accepted(&[ROOT, (10, 1, share)], &[(10, length)]);
            // The whole charge of a class with so much of its parent, and less than a tick more.
            let owed = 705_600 * u64::from(length);
            let paid = outcome.report[1][2] * u64::from(share);
            assert!(owed <= paid && paid < owed + u64::from(share));
        }
    }
}

#[test]
fn every_other_share_is_refused() {
    // The low 10 or 16 bits of some of these would be an allowed share.
    let far = [1024 + 840, 65_536 + 756, 705_600, 1 << 31, (1 << 31) + 1];
    for share in [0]
        .into_iter()
        .chain(841..2000)
        .chain(far)
        .chain([u32::MAX])
    {
        assert_eq!(refused(&[ROOT, (10, 1, share)], &[]), (8, 1, 0));
    }
}
