//! What a run answers: a number, two places and a count.

#[derive(Clone, Copy)]
pub struct Answer {
    pub number: u32,
    place: usize,
    second: usize,
    count: usize,
}

impl Answer {
    pub fn done(count: usize) -> Answer {
        Answer {
            number: 0,
            place: 0,
            second: 0,
            count,
        }
    }

    pub fn refused(number: u32, place: usize) -> Answer {
        Answer {
            number,
            place,
            second: 0,
            count: 0,
        }
    }

    /// Refusal 5, which also names the earlier row.
    pub fn repeated(place: usize, earlier: u8) -> Answer {
        Answer {
            second: earlier.into(),
            ..Answer::refused(5, place)
        }
    }

    /// Four words; places and counts are at most 65,536.
    pub fn bytes(&self) -> [u8; 16] {
        let numbers = [self.place, self.second, self.count].map(|number| number as u32);
        let words = [self.number, numbers[0], numbers[1], numbers[2]];
        let mut bytes = [0; 16];
        for (place, word) in bytes.as_chunks_mut().0.iter_mut().zip(words) {
            *place = word.to_le_bytes();
        }
        bytes
    }
}
