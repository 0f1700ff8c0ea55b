//! Shards.
use crate::error::{Error, LeaveError};
use crate::key::Key;
use crate::keys::ShardKeys;
use crate::pass::Pass;
use crate::record::{with_words, Record};
use std::ops::Deref;

/// A shard that a pass owns: it inserts there, and derefs to its pass, whose calls it has.
///
/// A shard that is dropped is left, and its pass comes home. If another pass is in the middle of a free there, the drop
/// yields to other threads for a while. If the free does not end, because its thread was stopped, the shard stays owned
/// and its pass away, for good. A caller that has to know calls [`leave`](Shard::leave).
#[derive(Debug)]
#[must_use = "a shard is left when it is dropped"]
pub struct Shard {
    pass: Pass,
}

impl Shard {
    // The pass owns a shard.
    pub(crate) fn of(pass: Pass) -> Shard {
        Shard { pass }
    }

    /// Stores a value of 0 to 16 words, and returns its key. If the shard is full, it collects, once, and tries again.
    ///
    /// # Errors
    ///
    /// [`Error::TooLong`], [`Error::Full`], and [`Error::Memory`] if a segment has to be opened.
    ///
    /// ```
    /// # use gearlongan::{Error, Heap, Layout, Shape};
    /// # let heap = Heap::open(Layout::Wide, Shape { shards: 1, segments: 1, passes: 1 })?;
    /// let shard = heap.take()?.adopt(0)?;
    /// let key = shard.insert(&[7, 8])?;
    /// assert_eq!(shard.load(key)?, [7, 8]);
    /// assert_eq!(shard.insert(&[0; 17]), Err(Error::TooLong));
    /// # Ok::<(), Error>(())
    /// ```
    #[inline]
    pub fn insert(&self, words: &[u64]) -> Result<Key, Error> {
        match self.insert_once(words) {
            Err(Error::Full) => {
                self.collect()?;
                self.insert_once(words)
            }
            answer => answer,
        }
    }

    /// Stores a record, as [`insert`](Shard::insert) does.
    ///
    /// # Errors
    ///
    /// [`Error::Full`], and [`Error::Memory`] if a segment has to be opened.
    ///
    /// ```
    /// # use gearlongan::{Error, Heap, Layout, Shape};
    /// # let heap = Heap::open(Layout::Wide, Shape { shards: 1, segments: 1, passes: 1 })?;
    /// # let shard = heap.take()?.adopt(0)?;
    /// let key = shard.insert_record(&(7, 8, [9, 10]))?;
    /// assert_eq!(shard.load(key)?, [7, 8, 9, 10]);
    /// # Ok::<(), Error>(())
    /// ```
    #[inline]
    pub fn insert_record<R: Record>(&self, record: &R) -> Result<Key, Error> {
        with_words(record, |words| self.insert(words))
    }

    /// Stores a value as [`insert`](Shard::insert) does, but does not collect.
    ///
    /// # Errors
    ///
    /// [`Error::TooLong`]. [`Error::Full`], if no page that the owner knows of has room (it does not look at what
    /// others freed on pages of other lengths). [`Error::Memory`] if a segment has to be opened.
    ///
    /// ```
    /// # use gearlongan::{Error, Heap, Layout, Shape};
    /// let heap = Heap::open(Layout::Wide, Shape { shards: 1, segments: 1, passes: 2 })?;
    /// let (shard, pass) = (heap.take()?.adopt(0)?, heap.take()?);
    /// let keys: Vec<_> = std::iter::from_fn(|| shard.insert_once(&[1]).ok()).collect();
    /// keys.into_iter().try_for_each(|key| pass.remove(key))?;
    /// assert_eq!(shard.insert_once(&[1; 16]), Err(Error::Full));
    /// assert!(shard.insert(&[1; 16]).is_ok());
    /// # Ok::<(), Error>(())
    /// ```
    #[inline]
    pub fn insert_once(&self, words: &[u64]) -> Result<Key, Error> {
        self.pass.handle.insert(words)
    }

    /// Gives a page of the shard to values of this many words, 0 to 16. Then the next 48 of one word, or 3 of 16
    /// words, need not look for one. Returns the page's number.
    ///
    /// # Errors
    ///
    /// [`Error::TooLong`], [`Error::Full`], and [`Error::Memory`] if a segment has to be opened.
    ///
    /// ```
    /// # use gearlongan::{Error, Heap, Layout, Shape};
    /// # let heap = Heap::open(Layout::Wide, Shape { shards: 1, segments: 1, passes: 1 })?;
    /// # let shard = heap.take()?.adopt(0)?;
    /// assert_eq!(shard.prepare(16)?, 0);
    /// assert_eq!(shard.prepare(17), Err(Error::TooLong));
    /// # Ok::<(), Error>(())
    /// ```
    pub fn prepare(&self, words: usize) -> Result<u32, Error> {
        let words = u32::try_from(words).map_err(|_| Error::TooLong)?;
        self.pass.handle.prepare(words)
    }

    /// Collects what others freed on all pages of the shard, so that pages of which nothing is used may take values of
    /// another length.
    ///
    /// # Errors
    ///
    /// None is known.
    ///
    /// ```
    /// # use gearlongan::{Error, Heap, Layout, Shape};
    /// let heap = Heap::open(Layout::Wide, Shape { shards: 1, segments: 1, passes: 2 })?;
    /// let (shard, pass) = (heap.take()?.adopt(0)?, heap.take()?);
    /// let keys: Vec<_> = std::iter::from_fn(|| shard.insert_once(&[1]).ok()).collect();
    /// keys.into_iter().try_for_each(|key| pass.remove(key))?;
    /// assert_eq!(shard.insert_once(&[1; 16]), Err(Error::Full));
    /// shard.collect()?;
    /// assert!(shard.insert_once(&[1; 16]).is_ok());
    /// # Ok::<(), Error>(())
    /// ```
    pub fn collect(&self) -> Result<(), Error> {
        self.pass.handle.collect()
    }

    /// How many pages of the shard have no class yet. Each has room for 48 values of a word, or for fewer longer ones.
    /// It takes no atomic step.
    ///
    /// # Errors
    ///
    /// None is known.
    ///
    /// ```
    /// # use gearlongan::{Error, Heap, Layout, Shape};
    /// # let heap = Heap::open(Layout::Wide, Shape { shards: 1, segments: 1, passes: 1 })?;
    /// # let shard = heap.take()?.adopt(0)?;
    /// assert_eq!(shard.pages_left()?, 8);
    /// shard.insert(&[7])?;
    /// assert_eq!(shard.pages_left()?, 7);
    /// # Ok::<(), Error>(())
    /// ```
    pub fn pages_left(&self) -> Result<u64, Error> {
        self.pass.handle.pages_left()
    }

    /// How many slots of the other pages are not free for the shard. They have a value, or had one that is held, or
    /// another pass freed them and they are not [collected](Shard::collect) yet. Or they are never used again. So the
    /// shard has at most this many values. It takes no atomic step.
    ///
    /// # Errors
    ///
    /// None is known.
    ///
    /// ```
    /// # use gearlongan::{Error, Heap, Layout, Shape};
    /// # let heap = Heap::open(Layout::Wide, Shape { shards: 1, segments: 1, passes: 2 })?;
    /// # let (shard, pass) = (heap.take()?.adopt(0)?, heap.take()?);
    /// let key = shard.insert(&[7])?;
    /// pass.remove(key)?;
    /// assert_eq!(shard.slots_out()?, 1);
    /// shard.collect()?;
    /// assert_eq!(shard.slots_out()?, 0);
    /// # Ok::<(), Error>(())
    /// ```
    pub fn slots_out(&self) -> Result<u64, Error> {
        self.pass.handle.slots_out()
    }

    /// The live keys of the shard, one after the other, while other passes go on: in the order of their slots, each
    /// once. It meets what [`walk`](crate::Pass::walk) meets in the shard, and needs no room for a guard.
    ///
    /// A recording (feature `record`) has nothing of these calls. Each item is `Ok`.
    ///
    /// ```
    /// # use gearlongan::{Error, Heap, Key, Layout, Shape};
    /// # let heap = Heap::open(Layout::Wide, Shape { shards: 1, segments: 1, passes: 2 })?;
    /// let (shard, pass) = (heap.take()?.adopt(0)?, heap.take()?);
    /// let (first, second) = (shard.insert(&[7])?, shard.insert(&[8])?);
    /// pass.remove(first)?;
    /// assert_eq!(shard.keys().collect::<Result<Vec<Key>, Error>>()?, [second]);
    /// # Ok::<(), Error>(())
    /// ```
    pub fn keys(&self) -> ShardKeys<'_> {
        ShardKeys::of(&self.pass.handle)
    }

    /// Removes keys of the whole heap, as [`Pass::remove_if`] does.
    ///
    /// ```
    /// # use gearlongan::{Error, Heap, Layout, Shape};
    /// # let heap = Heap::open(Layout::Wide, Shape { shards: 1, segments: 1, passes: 1 })?;
    /// let mut shard = heap.take()?.adopt(0)?;
    /// let key = shard.insert(&[7])?;
    /// assert_eq!(shard.remove_if(|met, words| met == key && *words == [7]), 1);
    /// # Ok::<(), Error>(())
    /// ```
    pub fn remove_if(&mut self, predicate: impl FnMut(Key, &[u64]) -> bool) -> usize {
        self.pass.remove_if(predicate)
    }

    /// Has a hook called with each key that a call of this pass ends: see [`Pass::on_end`].
    ///
    /// ```
    /// # use gearlongan::{Error, Heap, Layout, Shape};
    /// # let heap = Heap::open(Layout::Wide, Shape { shards: 1, segments: 1, passes: 1 })?;
    /// let mut shard = heap.take()?.adopt(0)?;
    /// shard.on_end(|_, words| assert_eq!(words, [7]));
    /// shard.remove(shard.insert(&[7])?)?;
    /// # Ok::<(), Error>(())
    /// ```
    pub fn on_end(&mut self, hook: impl Fn(Key, &[u64]) + Send + 'static) {
        self.pass.on_end(hook);
    }

    /// Leaves the shard, with all that is in it, to the pass that adopts it next, and gets the pass back.
    ///
    /// # Errors
    ///
    /// The shard, with [`Error::Waiting`], if another pass is in the middle of a free there.
    ///
    /// ```
    /// # use gearlongan::{Error, Heap, Layout, Shape};
    /// let heap = Heap::open(Layout::Wide, Shape { shards: 1, segments: 1, passes: 2 })?;
    /// let (shard, other) = (heap.take()?.adopt(0)?, heap.take()?);
    /// let key = shard.insert(&[7, 8])?;
    /// let pass = shard.leave()?;
    /// let shard = other.adopt(0)?;
    /// assert_eq!(shard.load(key)?, [7, 8]);
    /// # Ok::<(), Error>(())
    /// ```
    pub fn leave(self) -> Result<Pass, LeaveError> {
        match self.pass.handle.leave() {
            Ok(()) => Ok(self.pass),
            Err(error) => Err(LeaveError { shard: self, error }),
        }
    }
}

impl Deref for Shard {
    type Target = Pass;

    #[inline]
    fn deref(&self) -> &Pass {
        &self.pass
    }
}
