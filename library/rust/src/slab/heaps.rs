//! The heaps of a slab, which it opens as it needs them.
use super::chunk::{Chunk, Search, SEGMENT};
use super::config::Limits;
use super::number::{self, MOST_HEAPS};
use crate::Error;
use std::sync::atomic::Ordering::Relaxed;
use std::sync::atomic::{AtomicBool, AtomicUsize};
use std::sync::{Mutex, OnceLock, PoisonError};

/// The shards of the first heap: one is shared.
const FIRST_SHARDS: u32 = 4;

/// The segments of a shard in layout `Tagged`, at most.
const MOST_SEGMENTS: u64 = 32;

/// The segments of a heap, at most.
const LARGEST: u64 = number::MOST_SHARDS as u64 * MOST_SEGMENTS;

/// The most values that a shard of the first heap has room for.
pub(super) const FIRST_ROOM: u64 = MOST_SEGMENTS * SEGMENT;

/// Why another heap is to be opened.
#[derive(Clone, Copy, Debug, PartialEq, Eq)]
pub(super) enum Need {
    /// There is no room for a value.
    Room,
    /// There is room, but all shards that have it are owned by other threads.
    Shards,
}

/// The heaps of a slab, by their numbers.
pub(super) struct Heaps {
    // Each box has one. (The standard library's box of a value ends the process if memory is refused.)
    chunks: [OnceLock<Box<[Chunk]>>; MOST_HEAPS],
    // How many are open. A thread that sees one before its chunk passes over it.
    opened: AtomicUsize,
    // Who has this lock opens the next heap. Nothing of Rust is allocated or freed meanwhile.
    opening: Mutex<()>,
    // A thread found no shard, and waits for one that another gives back.
    asked: AtomicBool,
    limits: Limits,
}

// A vector with room for just one value, so that it becomes a box where it is. None if memory is refused.
fn room_for_one<T>() -> Option<Vec<T>> {
    let mut none = Vec::new();
    none.try_reserve_exact(1).ok()?;
    Some(none)
}

// The greatest power of two that is no greater.
fn power_below(number: u64) -> u64 {
    1 << number.max(1).ilog2()
}

// The greatest of 35, 50, 70, 100, 140, 200 and so on that is no greater, as shards and segments of each.
fn step_below(segments: u64) -> (u32, u32) {
    let each = power_below(segments / 35);
    let shards = if segments >= 50 * each { 50 } else { 35 };
    (shards, each as u32)
}

/// The shards and segments of a heap that is opened when those before have this many segments and shards.
///
/// A small slab doubles. Later each heap is less than half as large as all before, so that less memory waits for
/// values. It is larger than the heap before, so that glibc maps its memory. A heap opens by way of a copy, whose
/// memory goes back at once then.
fn shape(need: Need, segments: u64, shards: u32) -> (u32, u32) {
    match need {
        Need::Shards => (if shards < 16 { 16 } else { 64 }, 1),
        Need::Room if segments < 128 => (16, power_below(segments / 16) as u32),
        Need::Room if segments < LARGEST * 7 / 3 => step_below(segments * 3 / 7),
        Need::Room => (64, MOST_SEGMENTS as u32),
    }
}

impl Heaps {
    /// Opens the first heap.
    pub(super) fn open(limits: Limits) -> Result<Heaps, Error> {
        let segments = limits.first.div_ceil(SEGMENT).max(1).next_power_of_two().min(MOST_SEGMENTS);
        let mut first = room_for_one().ok_or(Error::Memory)?;
        first.push(Chunk::open(FIRST_SHARDS, segments as u32)?);
        let chunks = [const { OnceLock::new() }; MOST_HEAPS];
        _ = chunks[0].set(first.into_boxed_slice());
        Ok(Heaps {
            chunks,
            opened: AtomicUsize::new(1),
            opening: Mutex::new(()),
            asked: AtomicBool::new(false),
            limits,
        })
    }

    /// How many heaps there are.
    pub(super) fn opened(&self) -> usize {
        self.opened.load(Relaxed)
    }

    /// The heap of this number.
    #[inline]
    pub(super) fn chunk(&self, heap: usize) -> Option<&Chunk> {
        self.chunks.get(heap)?.get()?.first()
    }

    // The newest has most room.
    fn newest_first(&self) -> impl Iterator<Item = (usize, &Chunk)> {
        (0..self.opened()).rev().filter_map(|heap| Some((heap, self.chunk(heap)?)))
    }

    /// Opens another heap, if there are no more than `seen`: whether there are more now.
    pub(super) fn grow(&self, seen: usize, need: Need) -> bool {
        // Before the lock is taken, and freed after it: an allocator of the user may call the slab from within.
        let Some(mut next) = room_for_one() else { return false };
        let _opening = self.opening.lock().unwrap_or_else(PoisonError::into_inner);
        let opened = self.opened();
        if opened > seen {
            return true;
        }
        let (mut room, mut shards) = (0, 0);
        for (_, chunk) in self.newest_first() {
            room += chunk.room();
            shards = shards.max(chunk.shards());
        }
        if opened >= self.limits.heaps || room >= self.limits.values {
            return false;
        }
        let (shards, segments) = shape(need, room / SEGMENT, shards);
        let Ok(chunk) = Chunk::open(shards, segments) else { return false };
        next.push(chunk);
        if self.chunks[opened].set(next.into_boxed_slice()).is_err() {
            unreachable!("heaps are opened one after the other");
        }
        self.opened.store(opened + 1, Relaxed);
        true
    }

    /// Searches a shard with room in all heaps, until `adopt` has one: Err with what the slab needs if it has none.
    pub(super) fn search(&self, mut adopt: impl FnMut(usize, &Chunk, u32) -> bool) -> Result<(), Need> {
        let mut need = Need::Room;
        for (heap, chunk) in self.newest_first() {
            match chunk.claim() {
                Search::Found(shard) if adopt(heap, chunk, shard) => return Ok(()),
                Search::Found(shard) => {
                    chunk.release(shard);
                    need = Need::Shards;
                }
                Search::Taken => need = Need::Shards,
                Search::Full => {}
            }
        }
        Err(need)
    }

    /// A number of a shared shard. None if all are full.
    pub(super) fn insert_shared(&self) -> Option<u64> {
        self.newest_first().find_map(|(heap, chunk)| Some(number::number(heap, chunk.insert_shared()?)))
    }

    /// Says of each shard of which any key was removed that it has room: whether there is one.
    pub(super) fn forgive(&self) -> bool {
        self.newest_first().fold(false, |any, (_, chunk)| chunk.forgive() | any)
    }

    /// Asks the owners for a shard.
    pub(super) fn ask(&self) {
        self.asked.store(true, Relaxed);
    }

    /// Whether an owner is asked for its shard.
    #[inline]
    pub(super) fn is_asked(&self) -> bool {
        self.asked.load(Relaxed)
    }

    /// Takes what was asked: true for one caller.
    pub(super) fn answer(&self) -> bool {
        self.asked.swap(false, Relaxed)
    }
}

#[cfg(test)]
mod tests {
    use super::*;
    use crate::slab::DefaultConfig;

    #[test]
    fn a_slab_doubles_at_first_and_grows_by_two_fifths_later() {
        let (mut all, mut shapes) = (4, Vec::new());
        for _ in 0..17 {
            let (shards, segments) = shape(Need::Room, all, 16);
            shapes.push((shards, segments));
            all += u64::from(shards * segments);
        }
        let doubling = [(16, 1), (16, 1), (16, 2), (16, 4)];
        let steps =
            [(50, 1), (35, 2), (50, 2), (35, 4), (50, 4), (35, 8), (50, 8), (35, 16), (50, 16), (35, 32), (50, 32)];
        assert_eq!((&shapes[..4], &shapes[4..15], &shapes[15..]), (&doubling[..], &steps[..], &[(64, 32); 2][..]));
        assert_eq!((shape(Need::Shards, 4, 4), shape(Need::Shards, 4, 16)), ((16, 1), (64, 1)));
    }

    #[test]
    fn a_heap_is_larger_than_the_one_before_it() {
        for before in 128..LARGEST * 7 / 3 {
            let segments = |(shards, each): (u32, u32)| u64::from(shards * each);
            let one = segments(shape(Need::Room, before, 16));
            let next = segments(shape(Need::Room, before + one, 16));
            assert!(one < before / 2 && one < next && next <= LARGEST, "{before}: {one}, {next}");
        }
    }

    #[test]
    fn a_heap_is_opened_once_for_all_that_need_it() {
        let heaps = Heaps::open(Limits::of::<DefaultConfig>()).expect("it opens");
        assert!(heaps.grow(1, Need::Room) && heaps.grow(1, Need::Room));
        assert_eq!(heaps.opened(), 2);
    }

    #[test]
    fn no_heap_is_opened_past_the_limits() {
        let limits = Limits::of::<DefaultConfig>();
        let few = Heaps::open(Limits { heaps: 2, ..limits }).expect("it opens");
        assert!(few.grow(1, Need::Room) && !few.grow(2, Need::Room));
        let small = Heaps::open(Limits { values: 4 * SEGMENT, ..limits }).expect("it opens");
        assert!(!small.grow(1, Need::Shards));
    }

    #[test]
    fn the_first_heap_has_the_room_that_the_limits_ask_for() {
        let limits = Limits::of::<DefaultConfig>();
        for (first, segments) in [(0, 1), (384, 1), (385, 2), (5 * 384, 8), (1 << 40, 32)] {
            let heaps = Heaps::open(Limits { first, ..limits }).expect("it opens");
            assert_eq!(heaps.chunk(0).map(Chunk::room), Some(4 * segments * SEGMENT), "{first}");
        }
    }
}
