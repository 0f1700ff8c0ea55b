//! Walks over the live keys of a heap, while others insert and remove.
use crate::error::Error;
use crate::ffi::{LiveKey, PassHandle};
use crate::guard::Guard;
use crate::key::Key;
use crate::pass::Pass;
use crate::value::Value;
use std::iter::FusedIterator;
use std::mem;

/// The live keys of a heap with their values: see [`Pass::walk`].
#[derive(Debug)]
#[must_use = "an iterator does nothing until it is used"]
pub struct Walk<'a> {
    pass: &'a PassHandle,
    // What was met last. None at the end.
    met: Option<LiveKey>,
}

impl Iterator for Walk<'_> {
    type Item = (Key, Value);

    fn next(&mut self) -> Option<(Key, Value)> {
        let met = self.met.as_mut()?;
        if self.pass.next_live(met) {
            return Some((met.key, met.value));
        }
        self.met = None;
        None
    }
}

impl FusedIterator for Walk<'_> {}

/// Guards of the live keys of a heap: see [`Pass::walk_held`].
#[derive(Debug)]
#[must_use = "an iterator does nothing until it is used"]
pub struct HeldWalk<'a> {
    pass: &'a PassHandle,
    place: u64,
    // The last step was refused: the loop ends, and another one may go on.
    is_refused: bool,
}

impl<'a> Iterator for HeldWalk<'a> {
    type Item = Result<Guard<'a>, Error>;

    fn next(&mut self) -> Option<Result<Guard<'a>, Error>> {
        if mem::take(&mut self.is_refused) {
            return None;
        }
        match self.pass.next_held(&mut self.place) {
            Ok(Some((key, true))) => Some(Ok(Guard::of(self.pass, key))),
            Ok(Some((_, false))) => Some(Err(Error::Crowded)),
            Ok(None) => None,
            Err(error) => {
                self.is_refused = true;
                Some(Err(error))
            }
        }
    }
}

impl Pass {
    /// Walks over the live keys of the heap, with copies of their values, while others insert and remove.
    ///
    /// A walk meets the live keys in the order of their places, each place once. A key that is live from its begin to
    /// its end is met. One that is inserted or removed meanwhile is met or not, and a key that is met was live at that
    /// moment. In a [`Growing`](crate::Growing) heap a key of a chunk that opens meanwhile is met or not.
    ///
    /// Each step is a call of its own, which takes no hold and writes nothing to shared memory. So the loop may make
    /// other calls of the pass.
    ///
    /// ```
    /// # use gearlongan::{Error, Heap, Layout, Shape};
    /// let heap = Heap::open(Layout::Wide, Shape { shards: 1, segments: 1, passes: 2 })?;
    /// let (shard, pass) = (heap.take()?.adopt(0)?, heap.take()?);
    /// let (seven, eight) = (shard.insert(&[7])?, shard.insert(&[8])?);
    /// for (key, value) in pass.walk().filter(|(_, value)| *value == [7]) {
    ///     assert_eq!((key, pass.take(key)?), (seven, value));
    /// }
    /// assert!(pass.walk().map(|(key, _)| key).eq([eight]));
    /// # Ok::<(), Error>(())
    /// ```
    pub fn walk(&self) -> Walk<'_> {
        Walk { pass: &self.handle, met: Some(LiveKey::none()) }
    }

    /// The same with a guard of each key, which keeps its value for as long as the loop wants it.
    ///
    /// # Errors
    ///
    /// The iterator returns [`Error::HoldsFull`] if it meets a key and the pass has 16 guards (a
    /// [`Caller`](crate::Caller) 16 in the chunk of the key). Then it returns None, which ends a loop. Once a guard was
    /// dropped it goes on with that key. It passes over a key that has as many holds as a key may have, and returns
    /// [`Error::Crowded`].
    ///
    /// ```
    /// # use gearlongan::{Error, Guard, Heap, Layout, Shape};
    /// let heap = Heap::open(Layout::Wide, Shape { shards: 1, segments: 1, passes: 2 })?;
    /// let (shard, pass) = (heap.take()?.adopt(0)?, heap.take()?);
    /// (0..40).try_for_each(|n| shard.insert(&[n]).map(|_| ()))?;
    /// let mut walk = pass.walk_held();
    /// for count in [16, 16, 8] {
    ///     let guards: Vec<Guard<'_>> = walk.by_ref().flatten().collect();
    ///     assert_eq!(guards.len(), count);
    /// }
    /// # Ok::<(), Error>(())
    /// ```
    pub fn walk_held(&self) -> HeldWalk<'_> {
        HeldWalk { pass: &self.handle, place: 0, is_refused: false }
    }

    /// Removes each key that a [`walk`](Pass::walk) meets and for which `predicate` returns true, and returns how many
    /// this call removed. Another call may remove one of them first. The pass is borrowed, so that `predicate` makes no
    /// call of it.
    ///
    /// ```
    /// # use gearlongan::{Error, Heap, Layout, Shape};
    /// let heap = Heap::open(Layout::Wide, Shape { shards: 1, segments: 1, passes: 2 })?;
    /// let (shard, mut pass) = (heap.take()?.adopt(0)?, heap.take()?);
    /// let keys = [shard.insert(&[7, 100])?, shard.insert(&[8, 200])?];
    /// assert_eq!(pass.remove_if(|_, words| words[1] < 150), 1);
    /// assert_eq!(pass.load(keys[0]), Err(Error::Gone));
    /// assert_eq!(pass.load(keys[1])?, [8, 200]);
    /// # Ok::<(), Error>(())
    /// ```
    pub fn remove_if(&mut self, mut predicate: impl FnMut(Key, &[u64]) -> bool) -> usize {
        let (mut met, mut count) = (LiveKey::none(), 0);
        while self.handle.next_live(&mut met) {
            if predicate(met.key, &met.value) && self.remove(met.key).is_ok() {
                count += 1;
            }
        }
        count
    }
}
