//! The slices of a call, each in a block of its own between bytes that must stay as they are.

use trials::{call, Buffers, Engine, Random, ANSWER_BYTES, SLICES, WORD_BYTES};

/// Bytes before a slice and after it, at most.
const MOST_GUARDS: usize = 40;

/// What stands after a slice.
#[derive(Clone, Copy, PartialEq, Eq)]
pub enum After {
    Guards,
    /// Nothing: a checker of memory sees a byte too many at once.
    Nothing,
}

#[derive(Clone, PartialEq, Eq)]
struct Block {
    bytes: Box<[u8]>,
    from: usize,
    to: usize,
}

impl Block {
    fn around(slice: Vec<u8>, after: After, random: &mut Random) -> Block {
        let from = random.between(1, MOST_GUARDS);
        let guards = match after {
            After::Guards => random.between(1, MOST_GUARDS),
            After::Nothing => 0,
        };
        let to = from + slice.len();
        let mut bytes = any_bytes(to + guards, random);
        bytes[from..to].copy_from_slice(&slice);
        Block {
            bytes: bytes.into(),
            from,
            to,
        }
    }

    fn slice(&self) -> &[u8] {
        &self.bytes[self.from..self.to]
    }

    fn slice_mut(&mut self) -> &mut [u8] {
        &mut self.bytes[self.from..self.to]
    }

    /// Where the first byte that differs is, and what it is in both.
    fn difference(&self, other: &Block) -> Option<String> {
        let mut pairs = self.bytes.iter().zip(&other.bytes).enumerate();
        let (at, (own, other)) = pairs.find(|(_, (own, other))| own != other)?;
        let place = match at {
            _ if at < self.from => format!("byte {} before it", self.from - at),
            _ if at < self.to => format!("byte {}", at - self.from),
            _ => format!("byte {} after it", at - self.to + 1),
        };
        Some(format!("{place} is {own} and not {other}"))
    }
}

/// All ten. A copy of them has its slices at like addresses.
#[derive(Clone, PartialEq, Eq)]
pub struct Blocks([Block; 10]);

impl Blocks {
    pub fn around(buffers: Buffers, after: After, random: &mut Random) -> Blocks {
        Blocks(buffers.0.map(|slice| Block::around(slice, after, random)))
    }

    pub fn call(&mut self, engine: Engine) -> u32 {
        call(engine, self.0.each_mut().map(Block::slice_mut))
    }

    /// Whether one is no whole number of words, or the answer not four.
    pub fn have_part_words(&self) -> bool {
        let [.., answer] = &self.0;
        let mut all = self.0.iter().zip(WORD_BYTES);
        answer.slice().len() != ANSWER_BYTES
            || all.any(|(block, word)| block.slice().len() % word != 0)
    }

    /// How many begin at an address that is no multiple of their words' bytes.
    pub fn unaligned(&self) -> usize {
        let all = self.0.iter().zip(WORD_BYTES);
        all.filter(|(block, word)| block.slice().as_ptr().addr() % word != 0)
            .count()
    }

    /// The first difference to blocks that came of the same ones.
    pub fn difference(&self, other: &Blocks) -> Option<String> {
        let mut all = self.0.iter().zip(&other.0).zip(SLICES);
        all.find_map(|((own, other), name)| Some(format!("{name}: {}", own.difference(other)?)))
    }

    /// The bytes of each slice, for a reader.
    pub fn lengths(&self) -> String {
        let length = |(block, name): (&Block, _)| format!("{name} {}", block.slice().len());
        let lengths: Vec<String> = self.0.iter().zip(SLICES).map(length).collect();
        lengths.join(", ")
    }

    /// Changes the byte right before a slice, or right after it.
    #[cfg(test)]
    pub fn spoil_guard(&mut self, slice: usize, before: bool) {
        let block = &mut self.0[slice];
        let at = if before { block.from - 1 } else { block.to };
        block.bytes[at] ^= 1;
    }
}

pub fn any_bytes(count: usize, random: &mut Random) -> Vec<u8> {
    let words = (0..count.div_ceil(4)).flat_map(|_| random.word().to_le_bytes());
    words.take(count).collect()
}
