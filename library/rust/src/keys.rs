//! Keys, one after the other.
use crate::error::Error;
use crate::ffi::{HeapHandle, PassHandle};
use crate::key::Key;
use std::iter::FusedIterator;

// Where the next key is looked for, if there may be one.
#[derive(Debug)]
struct Place(Option<u64>);

impl Place {
    // The next item, by a call that returns the first key from a place on, and the place behind it.
    fn next(&mut self, call: impl FnOnce(&mut u64) -> Result<Option<Key>, Error>) -> Option<Result<Key, Error>> {
        let mut place = self.0.take()?;
        match call(&mut place) {
            Ok(None) => None,
            Ok(Some(key)) => {
                self.0 = Some(place);
                Some(Ok(key))
            }
            Err(error) => Some(Err(error)),
        }
    }
}

/// The keys of a heap: see [`Heap::keys`](crate::Heap::keys).
#[derive(Debug)]
#[must_use = "an iterator does nothing until it is used"]
pub struct Keys<'a> {
    heap: &'a HeapHandle,
    place: Place,
}

impl<'a> Keys<'a> {
    pub(crate) fn of(heap: &'a HeapHandle) -> Keys<'a> {
        Keys { heap, place: Place(Some(0)) }
    }
}

impl Iterator for Keys<'_> {
    type Item = Result<Key, Error>;

    fn next(&mut self) -> Option<Result<Key, Error>> {
        self.place.next(|place| self.heap.next_key(place))
    }
}

impl FusedIterator for Keys<'_> {}

/// The keys of a shard: see [`Shard::keys`](crate::Shard::keys).
#[derive(Debug)]
#[must_use = "an iterator does nothing until it is used"]
pub struct ShardKeys<'a> {
    owner: &'a PassHandle,
    place: Place,
}

impl<'a> ShardKeys<'a> {
    pub(crate) fn of(owner: &'a PassHandle) -> ShardKeys<'a> {
        ShardKeys { owner, place: Place(Some(0)) }
    }
}

impl Iterator for ShardKeys<'_> {
    type Item = Result<Key, Error>;

    fn next(&mut self) -> Option<Result<Key, Error>> {
        self.place.next(|place| self.owner.next_own_key(place))
    }
}

impl FusedIterator for ShardKeys<'_> {}
