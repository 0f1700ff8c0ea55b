//! One heap of a slab, with what the slab knows of its shards: which are taken, and which were found full.
use crate::{Error, Heap, Key, Layout, Pass, Shape, Shard};
use std::sync::atomic::Ordering::{Relaxed, SeqCst};
use std::sync::atomic::{AtomicU32, AtomicU64};
use std::sync::{Mutex, MutexGuard, PoisonError};

/// The values of no words that a segment has room for.
pub(super) const SEGMENT: u64 = 8 * 48;

/// The pages of a segment.
const PAGES: u32 = 8;

/// A heap has as many passes as it can have: its shared shard has one, and threads have the others.
const PASSES: u32 = 64;

/// One heap of a slab.
pub(super) struct Chunk {
    heap: Heap,
    shards: u32,
    segments: u32,
    // Shard 0, for threads that have no pass or no shard of this heap.
    shared: Mutex<Shard>,
    // A bit for each shard that has an owner, the shared one among them. Only the heap decides who owns a shard.
    taken: AtomicU64,
    // A bit for each shard that was found full, until enough of its keys were removed.
    full: AtomicU64,
    // How many keys of each shard were removed since it was found full.
    freed: [AtomicU32; 64],
}

/// What a search for a shard found.
#[derive(Debug, PartialEq, Eq)]
pub(super) enum Search {
    /// A shard with room, which is the caller's to adopt.
    Found(u32),
    /// All that have room are taken.
    Taken,
    /// None has room, except maybe the shared one.
    Full,
}

impl Chunk {
    /// Opens a heap of this many shards, each of a power of two of segments.
    pub(super) fn open(shards: u32, segments: u32) -> Result<Chunk, Error> {
        let heap = Heap::open(Layout::Tagged, Shape { shards, segments, passes: PASSES })?;
        let shared = Mutex::new(heap.take()?.adopt(0)?);
        let freed = std::array::from_fn(|_| AtomicU32::new(0));
        Ok(Chunk { heap, shards, segments, shared, taken: AtomicU64::new(1), full: AtomicU64::new(0), freed })
    }

    /// How many values have room.
    pub(super) fn room(&self) -> u64 {
        u64::from(self.shards) * u64::from(self.segments) * SEGMENT
    }

    /// How many shards it has.
    pub(super) fn shards(&self) -> u32 {
        self.shards
    }

    /// How many pages a shard has.
    pub(super) fn pages(&self) -> usize {
        (self.segments * PAGES) as usize
    }

    /// A pass, if one is at home.
    pub(super) fn take_pass(&self) -> Option<Pass> {
        self.heap.take().ok()
    }

    /// Searches a shard for a thread, and takes it.
    pub(super) fn claim(&self) -> Search {
        let all = u64::MAX >> (u64::BITS - self.shards);
        loop {
            let room = all & !self.full.load(Relaxed);
            let taken = self.taken.load(Relaxed);
            let free = room & !taken;
            if free == 0 {
                return if room & taken > 1 { Search::Taken } else { Search::Full };
            }
            let shard = free.trailing_zeros();
            if self.taken.fetch_or(1 << shard, Relaxed) >> shard & 1 == 0 {
                return Search::Found(shard);
            }
        }
    }

    /// Says that a shard has no owner any more.
    pub(super) fn release(&self, shard: u32) {
        self.taken.fetch_and(!(1 << shard), Relaxed);
    }

    /// Inserts into a shard of this heap. None if it is full, which is remembered, or if memory is refused.
    #[inline]
    pub(super) fn insert(&self, number: u32, shard: &Shard) -> Option<Key> {
        match shard.insert_once(&[]) {
            Ok(key) => Some(key),
            Err(_) => self.insert_or_mark(number, shard),
        }
    }

    // Marks the shard as full before it looks again. So no removal is lost: either it is found here, or it happens
    // later and is counted.
    #[cold]
    fn insert_or_mark(&self, number: u32, shard: &Shard) -> Option<Key> {
        self.freed.get(number as usize)?.store(0, Relaxed);
        self.full.fetch_or(1 << number, SeqCst);
        let key = shard.insert(&[]).ok()?;
        self.full.fetch_and(!(1 << number), Relaxed);
        Some(key)
    }

    /// Notes that a key of this shard was removed from the heap.
    #[inline]
    pub(super) fn note_removal(&self, number: u32) {
        if self.full.load(SeqCst) >> number & 1 == 1 {
            self.count_removal(number);
        }
    }

    // A shard has room again once an eighth of it is free: a thread that adopts it inserts for a while.
    #[cold]
    fn count_removal(&self, number: u32) {
        let Some(freed) = self.freed.get(number as usize) else { return };
        if u64::from(freed.fetch_add(1, Relaxed)) + 1 >= u64::from(self.segments) * SEGMENT / 8 {
            self.full.fetch_and(!(1 << number), Relaxed);
        }
    }

    /// Says of each shard of which any key was removed that it has room: whether there is one.
    pub(super) fn forgive(&self) -> bool {
        let any = self.freed.iter().enumerate().filter(|(_, freed)| freed.load(Relaxed) > 0);
        let bits = any.fold(0, |bits, (number, _)| bits | 1u64 << number);
        self.full.fetch_and(!bits, Relaxed) & bits != 0
    }

    fn lock(&self) -> MutexGuard<'_, Shard> {
        self.shared.lock().unwrap_or_else(PoisonError::into_inner)
    }

    /// Inserts into the shared shard. None if it is full.
    pub(super) fn insert_shared(&self) -> Option<Key> {
        if self.full.load(Relaxed) & 1 == 1 {
            return None;
        }
        self.insert(0, &self.lock())
    }

    /// Removes a key with the pass of the shared shard.
    pub(super) fn remove_shared(&self, key: Key) {
        // A key that was issued and is not removed can be removed.
        let removed = self.lock().remove(key);
        debug_assert!(removed.is_ok());
    }
}

#[cfg(test)]
mod tests {
    use super::*;

    fn adopted(chunk: &Chunk) -> (u32, Shard) {
        let Search::Found(number) = chunk.claim() else { panic!("a shard is free") };
        let pass = chunk.take_pass().expect("a pass is at home");
        (number, pass.adopt(number).expect("the shard has no owner"))
    }

    #[test]
    fn shards_are_taken_and_released() {
        let chunk = Chunk::open(4, 1).expect("it opens");
        assert_eq!((chunk.room(), chunk.pages()), (4 * 384, 8));
        let claimed = [(); 4].map(|()| chunk.claim());
        assert_eq!(claimed, [Search::Found(1), Search::Found(2), Search::Found(3), Search::Taken]);
        chunk.release(2);
        assert_eq!(chunk.claim(), Search::Found(2));
    }

    #[test]
    fn a_full_shard_has_room_again_once_an_eighth_is_free() {
        let chunk = Chunk::open(2, 1).expect("it opens");
        let (number, shard) = adopted(&chunk);
        let keys: Vec<Key> = std::iter::from_fn(|| chunk.insert(number, &shard)).collect();
        assert_eq!(keys.len() as u64, SEGMENT);
        drop(shard);
        chunk.release(number);
        let mut removals = 0;
        while chunk.claim() == Search::Full {
            chunk.remove_shared(keys[removals]);
            chunk.note_removal(number);
            removals += 1;
        }
        assert_eq!(removals, 48);
    }

    #[test]
    fn a_removal_is_found_before_the_shard_counts_as_full() {
        let chunk = Chunk::open(2, 1).expect("it opens");
        let (number, shard) = adopted(&chunk);
        let keys: Vec<Key> = std::iter::from_fn(|| shard.insert(&[]).ok()).collect();
        // An insert found no room. A removal comes before the shard counts as full, so that nothing is noted.
        chunk.remove_shared(keys[0]);
        chunk.note_removal(number);
        assert!(chunk.insert_or_mark(number, &shard).is_some(), "the second look finds it");
        assert_eq!(chunk.full.load(Relaxed), 0, "and the shard does not count as full");
        assert!(chunk.insert(number, &shard).is_none());
        assert!(!chunk.forgive(), "none was removed since");
        chunk.remove_shared(keys[1]);
        chunk.note_removal(number);
        assert!(chunk.forgive());
        assert!(chunk.insert(number, &shard).is_some());
    }

    #[test]
    fn the_shared_shard_is_not_tried_while_it_is_full() {
        let chunk = Chunk::open(1, 1).expect("it opens");
        let keys: Vec<Key> = std::iter::from_fn(|| chunk.insert_shared()).collect();
        assert_eq!(keys.len() as u64, SEGMENT);
        // The heap would have room: the slab does not ask it.
        chunk.remove_shared(keys[0]);
        assert!(chunk.insert_shared().is_none());
        (1..=48).for_each(|_| chunk.note_removal(0));
        assert!(chunk.insert_shared().is_some());
    }
}
