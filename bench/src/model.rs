//! The heap's steps on its words as bare atomics in Rust: no proof, no list of holds, no refusals.
mod lists;
mod owner;
mod pass;
mod words;

use crate::rival::Rival;
pub use owner::Owner;
use std::hint::black_box;
use words::{class_of, slots};
pub use words::{Words, PAGE_WORDS};

/// How many values of `words` words a page has.
pub fn slots_for(len: usize) -> usize {
    slots(class_of(len))
}

/// How many pages the values fill, of which each length from `least` to `most` has its share.
pub fn pages_for(lengths: std::ops::RangeInclusive<usize>, values: usize) -> usize {
    let each = values / lengths.clone().count() + 1;
    lengths.map(|len| each.div_ceil(slots_for(len))).sum()
}

impl<const PLAIN: bool> Rival for Words<PLAIN> {
    type Owner<'a> = Owner<'a, PLAIN>;

    fn owner(&self, shard: usize) -> Owner<'_, PLAIN> {
        Owner::adopt(self, shard)
    }

    fn insert(&self, owner: &mut Owner<'_, PLAIN>, words: &[u64]) -> u64 {
        loop {
            if let Some(key) = owner.insert(words) {
                return key;
            }
        }
    }

    fn remove_own(&self, owner: &mut Owner<'_, PLAIN>, key: u64) {
        owner.remove(key);
    }

    fn remove(&self, key: u64) {
        let (first, ended) = self.end(key);
        assert!(first);
        if let Some(spot) = ended {
            self.put(spot);
        }
    }

    fn hold(&self, key: u64) -> bool {
        let Some(spot) = black_box(self.get(key)) else {
            return false;
        };
        self.release(spot);
        true
    }

    fn read(&self, key: u64) -> u64 {
        let spot = self.get(key).expect("the key is there");
        let sum = self.sum(spot);
        self.release(spot);
        sum
    }

    fn look(&self, key: u64) -> u64 {
        self.look(key).expect("the key is there")
    }
}
