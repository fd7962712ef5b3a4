//! The most that the line finishes while a class keeps packets queued, worked up the tree.

use std::fmt;

use crate::shares::WHOLE;

/// A number of bytes, as a fraction in lowest terms.
#[derive(Clone, Copy, Debug, PartialEq, Eq)]
pub struct Figure {
    pub numerator: u64,
    pub denominator: u64,
}

impl Figure {
    /// The figure after a row of this share: three packets more, times 840 over the share, and
    /// the ticks. Nothing if that outgrows 64 bits on the way.
    fn step_up(self, three: u64, ticks: u64, share: u32) -> Option<Figure> {
        self.divided(three, share)?.with_ticks(ticks)
    }

    /// Three packets more, times 840 over the share in lowest terms. Nothing if that outgrows
    /// 64 bits before it is reduced itself.
    fn divided(self, three: u64, share: u32) -> Option<Figure> {
        let (whole, share) = lowest(u64::from(WHOLE), u64::from(share));
        let [numerator, denominator, three] =
            [self.numerator, self.denominator, three].map(u128::from);
        let sum = numerator + three * denominator;
        reduced(sum * u128::from(whole), denominator * u128::from(share))
    }

    /// So many ticks more, over the least common denominator. Nothing if that outgrows 64 bits
    /// before it is reduced.
    fn with_ticks(self, ticks: u64) -> Option<Figure> {
        let (ticks, parts) = lowest(ticks, u64::from(WHOLE));
        let (own, times) = lowest(self.denominator, parts);
        let [numerator, denominator, ticks, own, times] =
            [self.numerator, self.denominator, ticks, own, times].map(u128::from);
        reduced(numerator * times + ticks * own, denominator * times)
    }

    pub fn is_whole(self) -> bool {
        self.denominator == 1
    }

    pub fn rounded_up(self) -> u64 {
        self.numerator.div_ceil(self.denominator)
    }
}

impl fmt::Display for Figure {
    fn fmt(&self, to: &mut fmt::Formatter) -> fmt::Result {
        match self.is_whole() {
            true => write!(to, "{}", self.numerator),
            false => write!(to, "{}/{}", self.numerator, self.denominator),
        }
    }
}

/// A class's own bytes, then the figure after each row on its way up, given the shares of
/// these rows and the ticks that each step adds. It ends with the first that outgrows 64 bits,
/// which is missing.
pub fn climb(own: u32, three: u64, ticks: u64, shares: &[u32]) -> Vec<Option<Figure>> {
    let mut at = Figure {
        numerator: u64::from(own),
        denominator: 1,
    };
    let mut figures = vec![Some(at)];
    for share in shares {
        let after = at.step_up(three, ticks, *share);
        figures.push(after);
        let Some(figure) = after else {
            break;
        };
        at = figure;
    }
    figures
}

/// The fraction in lowest terms, if both parts are within 64 bits before.
fn reduced(above: u128, below: u128) -> Option<Figure> {
    let (above, below) = (u64::try_from(above).ok()?, u64::try_from(below).ok()?);
    let (numerator, denominator) = lowest(above, below);
    Some(Figure {
        numerator,
        denominator,
    })
}

/// Both divided by their greatest common divisor; one of them must not be 0.
fn lowest(above: u64, below: u64) -> (u64, u64) {
    let (mut divisor, mut rest) = (above, below);
    while rest != 0 {
        (divisor, rest) = (rest, divisor % rest);
    }
    (above / divisor, below / divisor)
}

#[cfg(test)]
mod tests {
    use super::*;
    use crate::events::MOST_BYTES;

    /// Three of the longest packets.
    const THREE: u64 = 3 * MOST_BYTES as u64;

    fn figure(numerator: u64, denominator: u64) -> Figure {
        Figure {
            numerator,
            denominator,
        }
    }

    #[test]
    fn figures_are_in_lowest_terms() {
        assert_eq!(figure(1, 1).divided(3, 49), Some(figure(480, 7)));
        assert_eq!(figure(480, 7).divided(3, 120), Some(figure(501, 1)));
        assert_eq!(figure(0, 1).divided(3, 576), Some(figure(35, 8)));
        assert_eq!(figure(1, 1).divided(3, 756), Some(figure(40, 9)));
    }

    /// 12 ticks are 1/70 of a byte: 480/7 + 1/70 is 4801/70, and 3/2 + 1/70 is 106/70. 2 ticks are
    /// 1/420: 4/11 + 1/420 is (1680 + 11) / 4620.
    #[test]
    fn ticks_are_added_in_lowest_terms() {
        assert_eq!(figure(480, 7).with_ticks(12), Some(figure(4801, 70)));
        assert_eq!(figure(3, 2).with_ticks(12), Some(figure(53, 35)));
        assert_eq!(figure(480, 7).with_ticks(840), Some(figure(487, 7)));
        assert_eq!(figure(1, 840).with_ticks(839), Some(figure(1, 1)));
        assert_eq!(figure(4, 11).with_ticks(2), Some(figure(1691, 4620)));
        assert_eq!(figure(5, 3).with_ticks(0), Some(figure(5, 3)));
    }

    #[test]
    fn ticks_come_after_the_division_by_the_share() {
        // (1 + 3) * 2 + 2/840, and not (1 + 3 + 2/840) * 2.
        assert_eq!(figure(1, 1).step_up(3, 2, 420), Some(figure(3361, 420)));
    }

    #[test]
    fn a_fraction_is_rounded_up_and_a_whole_number_is_not() {
        assert_eq!(figure(480, 7).rounded_up(), 69);
        assert_eq!(figure(501, 1).rounded_up(), 501);
        assert_eq!(figure(u64::MAX, 2).rounded_up(), 1 << 63);
    }

    #[test]
    fn the_numerator_may_just_fill_64_bits() {
        assert_eq!(
            figure(u64::MAX - 3, 1).divided(3, 840),
            Some(figure(u64::MAX, 1))
        );
        assert_eq!(figure(u64::MAX - 2, 1).divided(3, 840), None);
        assert_eq!(figure(u64::MAX, u64::MAX - 1).divided(THREE, 1), None);
    }

    #[test]
    fn the_factor_is_reduced_before_it_is_judged() {
        // Times 840 over 420 would outgrow 64 bits, times 2 does not.
        let large = 1 << 62;
        assert_eq!(
            figure(large, 1).divided(3, 420),
            Some(figure(2 * (large + 3), 1))
        );
    }

    #[test]
    fn a_result_that_only_reducing_would_make_fit_has_outgrown() {
        // A sum of 2^62 over 7, times 120 over 49, would be 2^62 * 120 over 343.
        assert_eq!(figure((1 << 62) - 21, 7).divided(3, 49), None);
        // A sum of 2^64 over 8 would be 2^61.
        assert_eq!(figure(u64::MAX - 23, 8).divided(3, 840), None);
    }

    /// 420 ticks are half a byte.
    #[test]
    fn ticks_may_just_fill_64_bits() {
        let half = u64::MAX / 2;
        assert_eq!(figure(half, 1).with_ticks(420), Some(figure(u64::MAX, 2)));
        assert_eq!(figure(half + 1, 1).with_ticks(420), None);
        let byte_more = Some(figure(half + 2, 1));
        assert_eq!(figure(half + 1, 1).with_ticks(840), byte_more);
        assert_eq!(figure(u64::MAX, 1).with_ticks(840), None);
        // Here it is the denominator, of odd numbers about 2^63.
        let just = Some(figure(half + 2, 2 * half));
        assert_eq!(figure(1, half).with_ticks(420), just);
        assert_eq!(figure(1, half + 2).with_ticks(420), None);
    }

    #[test]
    fn a_sum_that_only_reducing_would_make_fit_has_outgrown() {
        // Half a byte and half a byte more: 2^64 over 2 would be 2^63.
        assert_eq!(figure(u64::MAX, 2).with_ticks(420), None);
    }

    #[test]
    fn nothing_follows_a_figure_that_has_outgrown() {
        let figures = climb(u32::MAX, THREE, 0, &[1; 8]);
        assert_eq!(figures.len(), 5);
        assert!(figures[3].is_some() && figures[4].is_none());
    }
}
