//! Heaps that grow.
use crate::error::Error;
use crate::ffi::HeapHandle;
use crate::heap::{Heap, Room};
use crate::key::Key;
use crate::pass::Pass;
use crate::record::{with_words, Record};
use std::ops::Deref;

/// A heap that grows, [opened](Heap::growing) with one chunk. An insert that finds no room in the open chunks opens
/// another.
///
/// Callers have a share of the heap: its memory goes with the last of them, and with the `Growing`, in whatever order.
/// It is [`Sync`], as a [`Heap`] is, and has no accounts.
#[derive(Debug)]
pub struct Growing {
    handle: HeapHandle,
}

impl Heap {
    /// Opens a heap that grows. Its first chunk is the least one that has this room, and it has at most this many
    /// chunks, from 1 to 256. [`Room::owners`] is the number of threads that insert, since each keeps a shard: with
    /// fewer, a caller may find each shard taken. Then its insert opens a chunk, or is [`Error::NoShard`] beside free
    /// room.
    ///
    /// # Errors
    ///
    /// [`Error::BadShape`] if a number is outside its limits or no chunk has the room, and [`Error::Memory`].
    ///
    /// ```
    /// use gearlongan::{Error, Heap, Room};
    ///
    /// let room = Room { owners: 1, values: 100, words: 1, passes: 2 };
    /// let heap = Heap::growing(room, 256)?;
    /// let caller = heap.take()?;
    /// let keys = (0..1000).map(|n| caller.insert(&[n])).collect::<Result<Vec<_>, _>>()?;
    /// assert!(heap.chunks() > 1);
    /// assert_eq!(heap.take()?.load(keys[999])?, [999]);
    /// assert_eq!(Heap::growing(room, 257).err(), Some(Error::BadShape));
    /// # Ok::<(), Error>(())
    /// ```
    pub fn growing(first: Room, chunks: u32) -> Result<Growing, Error> {
        HeapHandle::open_growing(first, chunks).map(|handle| Growing { handle })
    }
}

impl Growing {
    /// How many passes the heap has, and so how many callers at a time.
    ///
    /// ```
    /// # use gearlongan::{Error, Heap, Room};
    /// let heap = Heap::growing(Room { owners: 1, values: 1, words: 1, passes: 8 }, 256)?;
    /// assert_eq!(heap.passes(), 8);
    /// # Ok::<(), Error>(())
    /// ```
    pub fn passes(&self) -> u64 {
        self.handle.passes()
    }

    /// How many chunks are open. Another thread may open one meanwhile.
    ///
    /// ```
    /// # use gearlongan::{Error, Heap, Room};
    /// let heap = Heap::growing(Room { owners: 1, values: 1, words: 1, passes: 1 }, 256)?;
    /// assert_eq!(heap.chunks(), 1);
    /// # Ok::<(), Error>(())
    /// ```
    pub fn chunks(&self) -> u64 {
        self.handle.chunks()
    }

    /// How many values of this many words the open chunks have slots for, if all their pages are for values of that
    /// length: 0 for more than 16 words. Another thread may open a chunk meanwhile.
    ///
    /// ```
    /// # use gearlongan::{Error, Heap, Room};
    /// let heap = Heap::growing(Room { owners: 2, values: 384, words: 1, passes: 2 }, 256)?;
    /// assert_eq!((heap.capacity(1), heap.capacity(16)), (768, 48));
    /// # Ok::<(), Error>(())
    /// ```
    pub fn capacity(&self, words: u32) -> u64 {
        self.handle.capacity(words)
    }

    /// How many bytes of memory the words of the open chunks take: 32.5 for each value of one word that they have room
    /// for. The lists of owners and the passes take more.
    ///
    /// ```
    /// # use gearlongan::{Error, Heap, Room};
    /// let heap = Heap::growing(Room { owners: 1, values: 384, words: 1, passes: 2 }, 256)?;
    /// assert_eq!(heap.bytes(), (8 * 195 + 2) * 8); // a page has 195 words, and a shard has two more
    /// # Ok::<(), Error>(())
    /// ```
    pub fn bytes(&self) -> u64 {
        self.handle.bytes()
    }

    // The same heap behind a lock of its own.
    pub(crate) fn share(&self) -> Result<Growing, Error> {
        self.handle.share().map(|handle| Growing { handle })
    }

    /// Takes a pass that is at home, as a caller. It comes home again when the caller is dropped.
    ///
    /// # Errors
    ///
    /// [`Error::NoPass`] if none is at home, and [`Error::Memory`].
    ///
    /// ```
    /// # use gearlongan::{Error, Heap, Room};
    /// let heap = Heap::growing(Room { owners: 1, values: 1, words: 1, passes: 1 }, 256)?;
    /// let caller = heap.take()?;
    /// assert_eq!(heap.take().err(), Some(Error::NoPass));
    /// drop(caller);
    /// assert!(heap.take().is_ok());
    /// # Ok::<(), Error>(())
    /// ```
    pub fn take(&self) -> Result<Caller, Error> {
        let pass = self.handle.take().map(Pass::of)?;
        Ok(Caller { pass })
    }

    /// Lends a caller to a closure, and brings it home when the closure returns or panics.
    ///
    /// # Errors
    ///
    /// Those of [`take`](Growing::take): then the closure is not called.
    ///
    /// ```
    /// # use gearlongan::{Error, Heap, Room};
    /// let heap = Heap::growing(Room { owners: 1, values: 1, words: 1, passes: 1 }, 256)?;
    /// let key = heap.with_caller(|caller| caller.insert(&[7]))??;
    /// assert_eq!(heap.with_caller(|caller| caller.take(key))??, [7]);
    /// assert!(heap.take().is_ok());
    /// # Ok::<(), Error>(())
    /// ```
    pub fn with_caller<T>(&self, call: impl FnOnce(&Caller) -> T) -> Result<T, Error> {
        let caller = self.take()?;
        Ok(call(&caller))
    }
}

/// The pass of a [`Growing`] heap: it inserts, and derefs to its pass, whose calls it has.
///
/// It adopts shards by itself, at most one in each chunk, and leaves them when it is dropped. The drop is that of a
/// [`Shard`](crate::Shard). It has at most 16 guards on keys of one chunk. Two of its calls are in their order if they
/// are in one chunk. A [`receipt`](Pass::receipt) covers all chunks that it has used.
///
/// ```
/// # use gearlongan::{Error, Heap, Room};
/// let heap = Heap::growing(Room { owners: 1, values: 1, words: 1, passes: 2 }, 256)?;
/// let (caller, other) = (heap.take()?, heap.take()?);
/// let key = caller.insert(&[7])?;
/// other.heed(caller.receipt()?)?;
/// assert_eq!(other.load(key)?, [7]); // `Gone` only if a call removed the key
/// # Ok::<(), Error>(())
/// ```
#[derive(Debug)]
#[must_use = "a caller goes home when it is dropped"]
pub struct Caller {
    pass: Pass,
}

impl Caller {
    /// Stores a value of 0 to 16 words in a chunk with room, and returns its key. A chunk that is not open is opened if
    /// no other has room.
    ///
    /// # Errors
    ///
    /// [`Error::TooLong`] and [`Error::Memory`]. If the heap may have no more chunks, [`Error::NoShard`] if each shard
    /// has another owner, and [`Error::Full`] if each of the others has no room after a collect.
    ///
    /// ```
    /// # use gearlongan::{Error, Heap, Room};
    /// let heap = Heap::growing(Room { owners: 1, values: 1, words: 1, passes: 1 }, 1)?;
    /// let caller = heap.take()?;
    /// let key = caller.insert(&[7, 8])?;
    /// assert_eq!(caller.take(key)?, [7, 8]);
    /// while caller.insert(&[7]).is_ok() {}
    /// assert_eq!(caller.insert(&[7]), Err(Error::Full));
    /// # Ok::<(), Error>(())
    /// ```
    #[inline]
    pub fn insert(&self, words: &[u64]) -> Result<Key, Error> {
        self.pass.handle.insert(words)
    }

    /// Stores a record, as [`insert`](Caller::insert) does.
    ///
    /// # Errors
    ///
    /// [`Error::Memory`], [`Error::NoShard`] and [`Error::Full`], as [`insert`](Caller::insert).
    ///
    /// ```
    /// # use gearlongan::{Error, Heap, Room};
    /// # let heap = Heap::growing(Room { owners: 1, values: 1, words: 1, passes: 1 }, 1)?;
    /// # let caller = heap.take()?;
    /// let key = caller.insert_record(&(7, 1000))?;
    /// assert_eq!(caller.load_record::<(u64, u64)>(key)?, (7, 1000));
    /// # Ok::<(), Error>(())
    /// ```
    #[inline]
    pub fn insert_record<R: Record>(&self, record: &R) -> Result<Key, Error> {
        with_words(record, |words| self.insert(words))
    }

    /// Removes keys of all chunks, as [`Pass::remove_if`] does.
    ///
    /// ```
    /// # use gearlongan::{Error, Heap, Room};
    /// # let heap = Heap::growing(Room { owners: 1, values: 1, words: 1, passes: 1 }, 256)?;
    /// let mut caller = heap.take()?;
    /// (0..1000).try_for_each(|n| caller.insert(&[n]).map(|_| ()))?;
    /// assert_eq!(caller.remove_if(|_, words| words[0] < 900), 900);
    /// assert_eq!(caller.walk().count(), 100);
    /// # Ok::<(), Error>(())
    /// ```
    pub fn remove_if(&mut self, predicate: impl FnMut(Key, &[u64]) -> bool) -> usize {
        self.pass.remove_if(predicate)
    }

    /// Has a hook called with each key that a call of this caller ends: see [`Pass::on_end`].
    ///
    /// ```
    /// # use gearlongan::{Error, Heap, Room};
    /// # let heap = Heap::growing(Room { owners: 1, values: 1, words: 1, passes: 1 }, 256)?;
    /// let mut caller = heap.take()?;
    /// caller.on_end(|_, words| assert_eq!(words, [7]));
    /// caller.remove(caller.insert(&[7])?)?;
    /// # Ok::<(), Error>(())
    /// ```
    pub fn on_end(&mut self, hook: impl Fn(Key, &[u64]) + Send + 'static) {
        self.pass.on_end(hook);
    }

    /// Collects what others freed in each shard that the caller owns, so that pages of which nothing is used may take
    /// values of another length.
    ///
    /// # Errors
    ///
    /// None is known.
    ///
    /// ```
    /// # use gearlongan::{Error, Heap, Room};
    /// # let heap = Heap::growing(Room { owners: 1, values: 1, words: 1, passes: 2 }, 256)?;
    /// let (caller, other) = (heap.take()?, heap.take()?);
    /// other.remove(caller.insert(&[7])?)?;
    /// caller.collect()?;
    /// # Ok::<(), Error>(())
    /// ```
    pub fn collect(&self) -> Result<(), Error> {
        self.pass.handle.collect()
    }

    /// Leaves the shards that the caller owns, so that other callers may insert there. The caller may insert again.
    ///
    /// # Errors
    ///
    /// [`Error::Waiting`], if another pass is in the middle of a free in one of them.
    ///
    /// ```
    /// # use gearlongan::{Error, Heap, Room};
    /// let heap = Heap::growing(Room { owners: 1, values: 1, words: 1, passes: 2 }, 256)?;
    /// let (caller, other) = (heap.take()?, heap.take()?);
    /// caller.insert(&[7])?;
    /// caller.leave()?;
    /// other.insert(&[8])?;
    /// assert_eq!(heap.chunks(), 1);
    /// # Ok::<(), Error>(())
    /// ```
    pub fn leave(&self) -> Result<(), Error> {
        self.pass.handle.leave()
    }

    /// Leaves each shard that the caller owns and in which no other pass is in the middle of a free. A caller that
    /// inserts seldom calls it between its inserts, so that others can insert in the same shard.
    ///
    /// # Errors
    ///
    /// [`Error::Waiting`], if the caller still owns a shard. All others are left then.
    ///
    /// ```
    /// # use gearlongan::{Error, Heap, Room};
    /// let heap = Heap::growing(Room { owners: 1, values: 1, words: 1, passes: 2 }, 1)?;
    /// let (caller, other) = (heap.take()?, heap.take()?);
    /// caller.insert(&[7])?;
    /// assert_eq!(other.insert(&[8]), Err(Error::NoShard)); // the one shard has an owner
    /// caller.leave_idle()?;
    /// other.insert(&[8])?;
    /// # Ok::<(), Error>(())
    /// ```
    pub fn leave_idle(&self) -> Result<(), Error> {
        self.pass.handle.leave_idle()
    }
}

impl Deref for Caller {
    type Target = Pass;

    #[inline]
    fn deref(&self) -> &Pass {
        &self.pass
    }
}
