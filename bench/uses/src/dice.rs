//! Numbers that look random and are the same in each run.

/// A generator by xorshift.
pub struct Dice(u64);

impl Dice {
    /// Generators with different numbers have different sequences.
    pub fn new(number: usize) -> Self {
        let mut dice = Dice(0x9E37_79B9_7F4A_7C15 ^ (number as u64 + 1).wrapping_mul(0xD134_2543_DE82_EF95));
        (0..8).for_each(|_| _ = dice.next());
        dice
    }

    pub fn next(&mut self) -> u64 {
        self.0 ^= self.0 << 13;
        self.0 ^= self.0 >> 7;
        self.0 ^= self.0 << 17;
        self.0
    }

    /// A number below this one.
    pub fn below(&mut self, limit: usize) -> usize {
        (self.next() % limit as u64) as usize
    }

    /// A number from 0 to 1.
    fn share(&mut self) -> f64 {
        (self.next() >> 11) as f64 / (1u64 << 53) as f64
    }
}

/// The exponent of Zipf's law, as the Yahoo benchmark of cloud stores has it.
const EXPONENT: f64 = 0.99;

/// This many numbers below `limit` by Zipf's law: the number of rank k comes in proportion to k to the power -0.99.
/// Ranks are scattered over the numbers, so that two frequent ones are not next to each other.
pub fn zipf(limit: usize, count: usize, dice: &mut Dice) -> Vec<u32> {
    let sums: Vec<f64> = (1..=limit)
        .scan(0.0, |sum, rank| {
            *sum += (rank as f64).powf(-EXPONENT);
            Some(*sum)
        })
        .collect();
    let all = sums.last().copied().unwrap_or_default();
    let rank = |share: f64| sums.partition_point(|sum| *sum < share * all).min(limit - 1);
    // (The stride has no divisor in common with the limits in use.)
    (0..count).map(|_| (rank(dice.share()) * 7919 % limit) as u32).collect()
}

#[cfg(test)]
mod tests {
    use super::*;

    #[test]
    fn frequent_numbers_are_as_frequent_as_the_law_says() {
        let drawn = zipf(1000, 100_000, &mut Dice::new(0));
        let share = |number: u32| drawn.iter().filter(|it| **it == number).count() as f64 / 100_000.0;
        // The sum of k^-0.99 for k = 1 to 1000 is 7.73.
        for (rank, number) in [(1, 0), (2, 7919 % 1000), (10, 9 * 7919 % 1000)] {
            let law = (rank as f64).powf(-EXPONENT) / 7.73;
            assert!((share(number) / law - 1.0).abs() < 0.1, "rank {rank}: {} and {law}", share(number));
        }
        assert!(drawn.iter().all(|number| *number < 1000));
    }

    #[test]
    fn generators_differ_and_repeat() {
        let first = |number| Dice::new(number).next();
        assert_eq!(first(3), first(3));
        assert_ne!(first(3), first(4));
    }
}
