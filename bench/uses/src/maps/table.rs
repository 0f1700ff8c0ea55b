//! The table of this repository, by the Rust crate, as a program opens it that says nothing of its room. Its records
//! have one length: values of several lengths are records of 16 words.
use super::{without_owners, Shared};
use crate::map::{Caller, Map, Room};
use crate::payload::{Payload, UpTo16};
use gearlongan::table::Key;
use gearlongan::Record;

/// A value that a table stores as a record.
pub trait Stored: Payload {
    type Words: Record + AsRef<[u64]>;

    fn words(words: &[u64]) -> Self::Words;
}

impl<const N: usize> Stored for [u64; N] {
    type Words = [u64; N];

    fn words(words: &[u64]) -> [u64; N] {
        words.try_into().expect("all values of the row have this length")
    }
}

impl Stored for UpTo16 {
    type Words = [u64; 16];

    // (Zeros behind the words change no sum.)
    fn words(words: &[u64]) -> [u64; 16] {
        let mut all = [0; 16];
        all[..words.len()].copy_from_slice(words);
        all
    }
}

pub struct Table<V: Stored>(gearlongan::Table<V::Words>);

impl<V: Stored> Map for Table<V> {
    without_owners!();

    fn open(_room: Room) -> Self {
        Table(gearlongan::Table::new())
    }
}

impl<V: Stored> Caller for Shared<'_, Table<V>> {
    fn insert(&mut self, words: &[u64]) -> u64 {
        self.0 .0.insert(&V::words(words)).expect("there is room").to_bits()
    }

    fn remove(&mut self, key: u64) -> bool {
        Key::from_bits(key).is_some_and(|key| self.0 .0.remove(key))
    }

    fn read(&mut self, key: u64) -> Option<u64> {
        let record = self.0 .0.get(Key::from_bits(key)?)?;
        Some(record.as_ref().iter().fold(0, |sum, word| sum.wrapping_add(*word)))
    }
}
