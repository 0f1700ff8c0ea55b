//! The values that rivals store: arrays of one length, or as many words as are in use of an array.

/// A value of the bench, as a rival stores it.
pub trait Payload: Send + Sync + 'static {
    /// The value with these words.
    fn of(words: &[u64]) -> Self;
    /// The sum of its words, as a number that wraps.
    fn sum(&self) -> u64;
}

fn sum_of(words: &[u64]) -> u64 {
    words.iter().fold(0, |sum, word| sum.wrapping_add(*word))
}

impl<const N: usize> Payload for [u64; N] {
    fn of(words: &[u64]) -> Self {
        words.try_into().expect("all values of the row have this length")
    }

    fn sum(&self) -> u64 {
        sum_of(self)
    }
}

/// A value of 1 to 16 words.
pub struct UpTo16 {
    len: usize,
    words: [u64; 16],
}

impl Payload for UpTo16 {
    fn of(words: &[u64]) -> Self {
        let mut all = [0; 16];
        all[..words.len()].copy_from_slice(words);
        UpTo16 { len: words.len(), words: all }
    }

    fn sum(&self) -> u64 {
        sum_of(&self.words[..self.len])
    }
}
