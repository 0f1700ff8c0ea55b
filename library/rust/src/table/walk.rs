//! Walks over the records of a table.
use super::{Key, Table};
use crate::ffi::LiveKey;
use crate::{Record, Value};
use std::iter;

/// A walk that removes what it meets, and what it did not meet as it is dropped.
struct Drain<'a, R: Record, W> {
    table: &'a Table<R>,
    walk: W,
}

impl<R: Record, W: Iterator<Item = (Key<R>, R)>> Iterator for Drain<'_, R, W> {
    type Item = (Key<R>, R);

    fn next(&mut self) -> Option<(Key<R>, R)> {
        self.walk.find(|(key, _)| self.table.remove(*key))
    }
}

impl<R: Record, W> Drop for Drain<'_, R, W> {
    fn drop(&mut self) {
        self.table.clear();
    }
}

impl<R: Record> Table<R> {
    // All keys, with the words of their records.
    fn walk(&self) -> impl Iterator<Item = (Key<R>, Value)> + '_ {
        let mut met = LiveKey::none();
        let next = move || {
            self.members.next_live(&mut met).then_some(())?;
            // No key of the library is 0.
            Some((Key::from_bits(met.key.into())?, met.value))
        };
        iter::from_fn(next).fuse()
    }

    /// All keys, with copies of their records, while other threads insert and remove: see
    /// [walks](crate::table#walks).
    ///
    /// ```
    /// # use gearlongan::{Error, Table};
    /// let table = Table::new();
    /// let (seven, eight) = (table.insert(&7u64)?, table.insert(&8)?);
    /// for (key, number) in table.iter() {
    ///     if number == 7 {
    ///         assert_eq!(table.take(key), Some(7)); // this thread has it, and no other
    ///     }
    /// }
    /// assert!(table.iter().eq([(eight, 8)]) && !table.contains(seven));
    /// # Ok::<(), Error>(())
    /// ```
    pub fn iter(&self) -> impl Iterator<Item = (Key<R>, R)> + '_ {
        self.walk().filter_map(|(key, value)| Some((key, value.record().ok()?)))
    }

    /// All keys, as [`iter`](Table::iter) meets them.
    ///
    /// ```
    /// # use gearlongan::{Error, Table};
    /// let table = Table::new();
    /// let keys = [table.insert(&7u64)?, table.insert(&8)?];
    /// assert!(table.keys().eq(keys));
    /// # Ok::<(), Error>(())
    /// ```
    pub fn keys(&self) -> impl Iterator<Item = Key<R>> + '_ {
        self.walk().map(|(key, _)| key)
    }

    /// Removes each key that a walk meets and for which `predicate` returns true: how many this call removed. Another
    /// thread may remove one of them first.
    ///
    /// ```
    /// # use gearlongan::{Error, Table};
    /// let table = Table::new();
    /// (0..100u64).try_for_each(|n| table.insert(&n).map(|_| ()))?;
    /// assert_eq!(table.remove_if(|_, number| number < 90), 90);
    /// assert_eq!(table.len(), 10);
    /// # Ok::<(), Error>(())
    /// ```
    pub fn remove_if(&self, mut predicate: impl FnMut(Key<R>, R) -> bool) -> usize {
        let mut count = 0;
        for (key, record) in self.iter() {
            if predicate(key, record) && self.remove(key) {
                count += 1;
            }
        }
        count
    }

    /// Removes each key that a walk meets and for which `keep` returns false.
    ///
    /// ```
    /// # use gearlongan::{Error, Table};
    /// let table = Table::new();
    /// let keys = [table.insert(&7u64)?, table.insert(&8)?];
    /// table.retain(|_, number| number > 7);
    /// assert!(table.keys().eq([keys[1]]));
    /// # Ok::<(), Error>(())
    /// ```
    pub fn retain(&self, mut keep: impl FnMut(Key<R>, R) -> bool) {
        self.remove_if(|key, record| !keep(key, record));
    }

    /// Removes each key that a walk meets, one after the other. It is not atomic: another thread may find some of them
    /// removed and others not, and a key that is inserted meanwhile may stay.
    ///
    /// ```
    /// # use gearlongan::{Error, Table};
    /// let table = Table::new();
    /// table.insert(&7u64)?;
    /// table.clear();
    /// assert!(table.is_empty());
    /// # Ok::<(), Error>(())
    /// ```
    pub fn clear(&self) {
        self.keys().for_each(|key| _ = self.remove(key));
    }

    /// Removes all keys, and returns each with its record. Those that are left as the iterator is dropped are removed
    /// too. If it is forgotten (`std::mem::forget`), they stay.
    ///
    /// ```
    /// # use gearlongan::{Error, Table};
    /// let mut table = Table::new();
    /// let key = table.insert(&7u64)?;
    /// assert!(table.drain().eq([(key, 7)]));
    /// assert!(table.is_empty());
    /// # Ok::<(), Error>(())
    /// ```
    pub fn drain(&mut self) -> impl Iterator<Item = (Key<R>, R)> + '_ {
        Drain { table: self, walk: self.iter() }
    }
}
