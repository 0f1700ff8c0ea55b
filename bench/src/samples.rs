//! The words that are stored: the same as `tool_bench` stores.

/// How long values are.
#[derive(Clone, Copy, Debug, PartialEq, Eq)]
pub enum Lengths {
    Each(usize),
    Mixed,
}

impl Lengths {
    /// How many words the value at a place has.
    pub fn at(self, place: usize) -> usize {
        match self {
            Lengths::Each(words) => words,
            Lengths::Mixed => place % 16 + 1,
        }
    }
}

/// Sixteen values: the one at place n of a list is the one at n % 16 here.
pub struct Samples {
    values: [([u64; 16], usize); 16],
}

impl Samples {
    pub fn new(lengths: Lengths) -> Self {
        let words = |place: usize| std::array::from_fn(|k| (place * 16 + k) as u64);
        Samples { values: std::array::from_fn(|place| (words(place), lengths.at(place))) }
    }

    /// The words of the value at a place of a list.
    pub fn at(&self, place: usize) -> &[u64] {
        let (words, len) = &self.values[place % 16];
        &words[..*len]
    }
}

/// A mixed order of this many places, the same as `tool_bench` has.
pub fn mixed_order(places: usize) -> Vec<usize> {
    const STRIDE: usize = 7919;
    (0..places).scan(0, |place, _| Some(std::mem::replace(place, (*place + STRIDE) % places))).collect()
}
