//! What a run, or the reading or writing of a text, answers: a number, two places and a count.

#[derive(Clone, Copy, Debug, PartialEq, Eq)]
pub struct Answer {
    pub number: u32,
    pub place: u32,
    pub second: u32,
    pub count: u32,
}

impl Answer {
    /// As they stand in a line.
    pub(crate) fn numbers(&self) -> [u32; 4] {
        [self.number, self.place, self.second, self.count]
    }

    /// All is accepted; the count is of packets put on the line, of rows read or bytes written.
    pub(crate) fn done(count: usize) -> Answer {
        Answer {
            number: 0,
            place: 0,
            second: 0,
            count: number_of(count),
        }
    }

    /// A refusal that names one place.
    pub(crate) fn refused(number: u32, place: usize) -> Answer {
        Answer {
            number,
            place: number_of(place),
            second: 0,
            count: 0,
        }
    }

    /// Refusal 5, which also names the earlier row.
    pub(crate) fn repeated(place: usize, earlier: usize) -> Answer {
        Answer {
            second: number_of(earlier),
            ..Answer::refused(5, place)
        }
    }
}

/// Rows, events, lines and counts are far below 2^32 wherever an answer names them.
pub(crate) fn number_of(place: usize) -> u32 {
    u32::try_from(place).unwrap_or(u32::MAX)
}
