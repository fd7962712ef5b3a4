//! Times of one thing that is measured several times.

/// The times, ascending; there is at least one.
#[derive(Default)]
pub struct Times(Vec<f64>);

impl Times {
    pub fn add(&mut self, time: f64) {
        let place = self.0.partition_point(|t| *t < time);
        self.0.insert(place, time);
    }

    pub fn best(&self) -> f64 {
        self.0[0]
    }

    /// The middle one, or the mean of the two in the middle.
    pub fn median(&self) -> f64 {
        let count = self.0.len();
        (self.0[(count - 1) / 2] + self.0[count / 2]) / 2.0
    }
}

#[cfg(test)]
mod tests {
    use super::Times;

    #[test]
    fn best_and_median_do_not_hang_on_the_order() {
        let mut times = Times::default();
        [5.0, 1.0, 9.0].into_iter().for_each(|t| times.add(t));
        assert_eq!((times.best(), times.median()), (1.0, 5.0));
        times.add(7.0);
        assert_eq!((times.best(), times.median()), (1.0, 6.0));
    }
}
