//! Heaps.
use crate::accounts::{PageAccounts, Totals};
use crate::error::Error;
use crate::ffi::HeapHandle;
use crate::keys::Keys;
use crate::pass::Pass;

/// How many shards and pages a heap may have, and so what its keys look like. A page has 48 slots for values of a word,
/// and fewer for longer ones, down to 3 for 16 words; 8 pages are a segment.
#[derive(Clone, Copy, Debug, Default, PartialEq, Eq, Hash)]
#[non_exhaustive]
pub enum Layout {
    /// 256 shards of 1,024 pages each.
    #[default]
    Wide,
    /// 64 shards of 256 pages; keys are below 2^52.
    Tagged,
    /// 64 shards of 1,048,576 pages; keys use all 64 bits.
    Deep,
    /// 4 shards of 16 pages, whose slots serve 3 values each and no more: for tests.
    Tiny,
}

impl Layout {
    pub(crate) fn number(self) -> u32 {
        match self {
            Layout::Wide => 0,
            Layout::Tagged => 1,
            Layout::Deep => 2,
            Layout::Tiny => 3,
        }
    }

    /// The layout of this number. (Those of growing heaps have another, and no `Heap` has one.)
    pub(crate) fn numbered(number: u32) -> Layout {
        match number {
            1 => Layout::Tagged,
            2 => Layout::Deep,
            3 => Layout::Tiny,
            _ => Layout::Wide,
        }
    }

    /// The most holds that a key may have.
    pub(crate) fn holds(self) -> u32 {
        match self {
            Layout::Wide | Layout::Tagged | Layout::Deep => 1 << 20,
            Layout::Tiny => 4,
        }
    }
}

/// How many shards, segments and passes a heap has: at least one of each.
#[derive(Clone, Copy, Debug, PartialEq, Eq, Hash)]
pub struct Shape {
    /// As many as the layout has, at most.
    pub shards: u32,
    /// Of each shard. A segment is 8 pages.
    pub segments: u32,
    /// At most 64.
    pub passes: u32,
}

/// What a heap is to have room for.
#[derive(Clone, Copy, Debug, PartialEq, Eq, Hash)]
pub struct Room {
    /// How many threads insert: each has a shard, also in a [`Growing`](crate::Growing) heap, and keeps it until it
    /// leaves it. 1 to as many shards as the layout has, and to 64 in a growing heap.
    pub owners: u32,
    /// The most values that are in the shard of each owner at one time.
    pub values: u64,
    /// How long a value is: 0 to 16 words.
    pub words: u32,
    /// How many passes there are, owners among them: 1 to 64.
    pub passes: u32,
}

/// A heap, with those of its passes that are at home.
///
/// Passes have a share of the heap: its memory goes with the last of them, and with the `Heap`, in whatever order.
///
/// A `Heap` is [`Sync`]: threads may share it, and take a pass each. Its calls lock a [`Mutex`](std::sync::Mutex) of
/// the handle. No call of a pass or a shard locks anything.
#[derive(Debug)]
pub struct Heap {
    handle: HeapHandle,
}

impl Heap {
    /// Opens a heap of this shape.
    ///
    /// # Errors
    ///
    /// [`Error::BadShape`] if the numbers are outside the limits of the layout, and [`Error::Memory`].
    ///
    /// ```
    /// use gearlongan::{Error, Heap, Layout, Shape};
    ///
    /// let heap = Heap::open(Layout::Wide, Shape { shards: 4, segments: 2, passes: 8 })?;
    /// assert_eq!(heap.passes(), 8);
    /// let refused = Heap::open(Layout::Wide, Shape { shards: 257, segments: 2, passes: 8 });
    /// assert_eq!(refused.err(), Some(Error::BadShape));
    /// # Ok::<(), Error>(())
    /// ```
    pub fn open(layout: Layout, shape: Shape) -> Result<Heap, Error> {
        HeapHandle::open(layout, shape).map(|handle| Heap { handle })
    }

    /// Opens the least heap that has this room.
    ///
    /// # Errors
    ///
    /// [`Error::BadShape`] if no heap of the layout has the room, and [`Error::Memory`].
    ///
    /// ```
    /// use gearlongan::{Error, Heap, Layout, Room};
    ///
    /// let room = Room { owners: 2, values: 20_000, words: 2, passes: 8 };
    /// let heap = Heap::open_for(Layout::Wide, room)?;
    /// assert_eq!(heap.passes(), 8);
    /// let refused = Heap::open_for(Layout::Wide, Room { words: 17, ..room });
    /// assert_eq!(refused.err(), Some(Error::BadShape));
    /// # Ok::<(), Error>(())
    /// ```
    pub fn open_for(layout: Layout, room: Room) -> Result<Heap, Error> {
        HeapHandle::open_for(layout, room).map(|handle| Heap { handle })
    }

    /// Records what the passes of the heap return from now on: see the module [`history`](crate::history). It is there
    /// with the feature `record`. If the heap is recorded, this returns the same recording again.
    ///
    /// # Errors
    ///
    /// [`Error::Away`] if a pass was taken before: what it inserted is not known.
    ///
    /// ```
    /// # use gearlongan::{Error, Heap, Layout, Shape};
    /// let mut heap = Heap::open(Layout::Wide, Shape { shards: 1, segments: 1, passes: 1 })?;
    /// let recording = heap.record()?;
    /// heap.take()?.adopt(0)?.insert(&[7])?;
    /// print!("{}", recording.history()?);
    /// # assert_eq!(recording.history()?.len(), 1);
    /// let mut other = Heap::open(Layout::Wide, Shape { shards: 1, segments: 1, passes: 1 })?;
    /// drop(other.take()?);
    /// assert_eq!(other.record().err(), Some(Error::Away));
    /// # Ok::<(), Error>(())
    /// ```
    #[cfg(feature = "record")]
    pub fn record(&mut self) -> Result<crate::history::Recording, Error> {
        self.handle.record()
    }

    /// How many passes the heap has, at home or away.
    ///
    /// ```
    /// # use gearlongan::{Error, Heap, Layout, Shape};
    /// let heap = Heap::open(Layout::Wide, Shape { shards: 1, segments: 1, passes: 2 })?;
    /// let _pass = heap.take()?;
    /// assert_eq!(heap.passes(), 2);
    /// # Ok::<(), Error>(())
    /// ```
    pub fn passes(&self) -> u64 {
        self.handle.passes()
    }

    /// The layout that the heap was opened with.
    ///
    /// ```
    /// # use gearlongan::{Error, Heap, Layout, Shape};
    /// let heap = Heap::open(Layout::Deep, Shape { shards: 1, segments: 1, passes: 1 })?;
    /// assert_eq!(heap.layout(), Layout::Deep);
    /// # Ok::<(), Error>(())
    /// ```
    pub fn layout(&self) -> Layout {
        self.handle.layout()
    }

    /// How many values of this many words the heap has slots for, if all its pages are for values of that length: 0 for
    /// more than 16 words.
    ///
    /// ```
    /// # use gearlongan::{Error, Heap, Layout, Shape};
    /// let heap = Heap::open(Layout::Wide, Shape { shards: 2, segments: 1, passes: 1 })?;
    /// assert_eq!((heap.capacity(1), heap.capacity(16)), (768, 48));
    /// # Ok::<(), Error>(())
    /// ```
    pub fn capacity(&self, words: u32) -> u64 {
        self.handle.capacity(words)
    }

    /// How many bytes of memory the heap's words take: 32.5 for each value of one word that it has room for. The lists
    /// of owners and the passes take more.
    ///
    /// ```
    /// # use gearlongan::{Error, Heap, Layout, Shape};
    /// let heap = Heap::open(Layout::Wide, Shape { shards: 1, segments: 1, passes: 1 })?;
    /// assert_eq!(heap.bytes(), (8 * 195 + 2) * 8); // a page has 195 words, and a shard has two more
    /// # Ok::<(), Error>(())
    /// ```
    pub fn bytes(&self) -> u64 {
        self.handle.bytes()
    }

    /// Takes a pass that is at home. It comes home again when it is dropped.
    ///
    /// # Errors
    ///
    /// [`Error::NoPass`] if none is at home, and [`Error::Memory`].
    ///
    /// ```
    /// # use gearlongan::{Error, Heap, Layout, Shape};
    /// let heap = Heap::open(Layout::Wide, Shape { shards: 1, segments: 1, passes: 1 })?;
    /// let pass = heap.take()?;
    /// assert_eq!(heap.take().err(), Some(Error::NoPass));
    /// drop(pass);
    /// assert!(heap.take().is_ok());
    /// # Ok::<(), Error>(())
    /// ```
    pub fn take(&self) -> Result<Pass, Error> {
        self.handle.take().map(Pass::of)
    }

    /// Lends a pass that is at home to a closure, and brings it home when the closure returns or panics.
    ///
    /// # Errors
    ///
    /// Those of [`take`](Heap::take): then the closure is not called.
    ///
    /// ```
    /// # use gearlongan::{Error, Heap, Layout, Shape};
    /// # let heap = Heap::open(Layout::Wide, Shape { shards: 1, segments: 1, passes: 2 })?;
    /// let shard = heap.take()?.adopt(0)?;
    /// let key = shard.insert(&[7])?;
    /// let value = heap.with_pass(|pass| pass.take(key))??;
    /// assert_eq!(value, [7]);
    /// assert!(heap.take().is_ok());
    /// # Ok::<(), Error>(())
    /// ```
    pub fn with_pass<T>(&self, call: impl FnOnce(&Pass) -> T) -> Result<T, Error> {
        let pass = self.take()?;
        Ok(call(&pass))
    }

    /// Joins all passes of the heap in one, which is at home afterwards and is the only one from then on. The holds of
    /// the others stay in their slots for good. If they were joined before, nothing is done.
    ///
    /// # Errors
    ///
    /// [`Error::Away`] if a pass is not at home, with all others at home as they were, and [`Error::Memory`].
    ///
    /// ```
    /// # use gearlongan::{Error, Heap, Layout, Shape};
    /// let heap = Heap::open(Layout::Wide, Shape { shards: 1, segments: 1, passes: 2 })?;
    /// let shard = heap.take()?.adopt(0)?;
    /// shard.insert(&[7])?;
    /// assert_eq!(heap.gather(), Err(Error::Away));
    /// drop(shard);
    /// heap.gather()?;
    /// assert_eq!(heap.totals()?.live, 1);
    /// assert_eq!(heap.accounts(0, 0)?.class, Some(0));
    /// # Ok::<(), Error>(())
    /// ```
    pub fn gather(&self) -> Result<(), Error> {
        self.handle.gather()
    }

    /// What the slots of a page are, by the number of the shard and that of its page, both from 0.
    ///
    /// # Errors
    ///
    /// [`Error::Away`] if the pass that [`gather`](Heap::gather) left is not at home, and [`Error::NoPage`].
    ///
    /// ```
    /// # use gearlongan::{Error, Heap, Layout, Shape};
    /// let heap = Heap::open(Layout::Wide, Shape { shards: 1, segments: 1, passes: 1 })?;
    /// assert_eq!(heap.accounts(0, 7)?.class, None);
    /// assert_eq!(heap.accounts(0, 8), Err(Error::NoPage));
    /// # Ok::<(), Error>(())
    /// ```
    pub fn accounts(&self, shard: u32, page: u32) -> Result<PageAccounts, Error> {
        self.handle.accounts(shard, page)
    }

    /// The sums over all pages.
    ///
    /// # Errors
    ///
    /// [`Error::Away`] if the pass that [`gather`](Heap::gather) left is not at home.
    ///
    /// ```
    /// # use gearlongan::{Error, Heap, Layout, Shape};
    /// let heap = Heap::open(Layout::Wide, Shape { shards: 1, segments: 1, passes: 2 })?;
    /// assert_eq!(heap.totals(), Err(Error::Away));
    /// heap.gather()?;
    /// assert_eq!(heap.totals()?.blank_pages, 8);
    /// # Ok::<(), Error>(())
    /// ```
    pub fn totals(&self) -> Result<Totals, Error> {
        self.handle.totals()
    }

    /// The keys of the map, one after the other: each once, in the order of their slots, if the map does not change
    /// meanwhile.
    ///
    /// # Errors
    ///
    /// The iterator returns [`Error::Away`], and then nothing more, if the pass that [`gather`](Heap::gather) left is
    /// not at home.
    ///
    /// ```
    /// # use gearlongan::{Error, Heap, Key, Layout, Shape};
    /// let heap = Heap::open(Layout::Wide, Shape { shards: 1, segments: 1, passes: 2 })?;
    /// let shard = heap.take()?.adopt(0)?;
    /// let (first, second) = (shard.insert(&[7])?, shard.insert(&[8])?);
    /// let third = shard.insert(&[9])?;
    /// shard.remove(second)?;
    /// drop(shard);
    /// heap.gather()?;
    /// let keys = heap.keys().collect::<Result<Vec<Key>, Error>>()?;
    /// assert_eq!(keys.len(), 2);
    /// assert!(keys.contains(&first) && keys.contains(&third));
    /// # Ok::<(), Error>(())
    /// ```
    pub fn keys(&self) -> Keys<'_> {
        Keys::of(&self.handle)
    }
}
