//! A small generator of random numbers: splitmix64.

pub struct Random(u64);

impl Random {
    /// The numbers for one list under a seed; those of another list are unrelated.
    pub fn new(seed: u64, list: u64) -> Random {
        let first = Random(seed).next();
        Random(first ^ list.wrapping_mul(0xD1B5_4A32_D192_ED03))
    }

    fn next(&mut self) -> u64 {
        self.0 = self.0.wrapping_add(0x9E37_79B9_7F4A_7C15);
        let mut mixed = self.0;
        mixed = (mixed ^ (mixed >> 30)).wrapping_mul(0xBF58_476D_1CE4_E5B9);
        mixed = (mixed ^ (mixed >> 27)).wrapping_mul(0x94D0_49BB_1331_11EB);
        mixed ^ (mixed >> 31)
    }

    /// Any 32-bit number.
    pub fn word(&mut self) -> u32 {
        (self.next() >> 32) as u32
    }

    /// A number under the limit, which must not be 0.
    pub fn below(&mut self, limit: usize) -> usize {
        (self.next() >> 11) as usize % limit
    }

    pub fn between(&mut self, least: usize, most: usize) -> usize {
        least + self.below(most - least + 1)
    }

    pub fn one_in(&mut self, chance: usize) -> bool {
        self.below(chance) == 0
    }

    /// One of these, of which there must be some.
    pub fn pick<T: Copy>(&mut self, from: &[T]) -> T {
        from[self.below(from.len())]
    }

    pub fn shuffle<T>(&mut self, all: &mut [T]) {
        for last in (1..all.len()).rev() {
            all.swap(last, self.below(last + 1));
        }
    }
}

#[cfg(test)]
mod tests {
    use std::collections::BTreeSet;

    use super::Random;

    #[test]
    fn the_same_seed_gives_the_same_numbers() {
        let numbers = |seed, list| {
            let mut random = Random::new(seed, list);
            [random.word(), random.word(), random.word()]
        };
        assert_eq!(numbers(7, 3), numbers(7, 3));
        assert_ne!(numbers(7, 3), numbers(8, 3));
        assert_ne!(numbers(7, 3), numbers(7, 4));
    }

    #[test]
    fn every_order_comes_up() {
        let mut random = Random::new(1, 1);
        let mut orders = BTreeSet::new();
        for _ in 0..200 {
            let mut order = [1, 2, 3, 4];
            random.shuffle(&mut order);
            orders.insert(order);
        }
        assert_eq!(orders.len(), 24);
    }

    #[test]
    fn both_ends_of_a_range_come_up() {
        let mut random = Random::new(1, 1);
        let numbers: Vec<usize> = (0..100).map(|_| random.between(5, 7)).collect();
        assert_eq!(numbers.iter().min(), Some(&5));
        assert_eq!(numbers.iter().max(), Some(&7));
    }
}
