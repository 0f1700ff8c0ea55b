//! A table of records that any number of threads share, by `&Table`.
//!
//! A [`Table`] stores records of one type, and issues a [`Key`] for each. No key is used again, so a key that is out of
//! date finds nothing. A thread inserts, gets and removes, and does nothing before its first call or after its last.
//!
//! ```
//! use gearlongan::{Error, Table};
//! use std::thread;
//!
//! gearlongan::record! {
//!     #[derive(Debug, PartialEq)]
//!     struct Session {
//!         user: u32,
//!         until: f64,
//!     }
//! }
//!
//! let table = Table::new();
//! let key = table.insert(&Session { user: 7, until: 8.5 })?;
//! thread::scope(|scope| {
//!     scope.spawn(|| assert_eq!(table.get(key).map(|session| session.user), Some(7)));
//!     scope.spawn(|| assert!(table.contains(key)));
//! });
//! assert!(table.remove(key));
//! assert!(!table.remove(key) && table.get(key).is_none());
//! # Ok::<(), Error>(())
//! ```
//!
//! # Threads
//!
//! A table has 60 places for threads of their own, and 4 that all other threads share, each behind a lock.
//!
//! - A thread takes a place at its first call, or beforehand by [`Table::enter`]. Its calls lock nothing then,
//!   except [`Table::capacity`] and [`Table::bytes`]. These wait for no call that allocates.
//! - As the thread ends its place rests, with its room and whatever is free there, and the next thread that asks has
//!   it as it is. A thread that goes idle may call [`Table::rest`] for that.
//! - A thread that finds no place uses a shared one, and looks for one of its own at each call. The destructors of a
//!   thread that run after those of this crate use a shared one too.
//! - An insert that finds no room tries the resting and shared places before it is refused. It does not try the room of
//!   other threads' places.
//! - If an allocator calls the table while a call of the same thread allocates, it waits for no lock: the call has a
//!   place that is free at once. If there is none, an insert is refused as [`Error::NoPlace`], a walk ends, and the
//!   other calls return what they return of a key without a record.
//!
//! A get sees an insert that happens before it, and so a removal. That is tested, and not proved: the contracts of the
//! library order two threads by receipts alone, which a table has not. Each step of the library is a sequentially
//! consistent atomic operation.
//!
//! A table lives in a static too:
//!
//! ```
//! use gearlongan::Table;
//! use std::sync::LazyLock;
//!
//! static TOKENS: LazyLock<Table<u32>> = LazyLock::new(Table::new);
//!
//! let key = TOKENS.insert(&7)?;
//! assert_eq!(TOKENS.take(key), Some(7));
//! # Ok::<(), gearlongan::Error>(())
//! ```
//!
//! # Records
//!
//! A record is copied into the table and out of it as words. So neither a removal nor the end of the table drops a
//! record: if its type has a `Drop`, each copy runs it that a call returns. [`Table::on_end`] has a closure called with
//! each record whose key ended.
//!
//! [`Record::write`] runs before the table is changed, and [`Record::read`] after. Both may call the table, and if they
//! panic the table is whole. A `take` whose `read` panics has removed its key.
//!
//! # Walks
//!
//! A walk ([`Table::iter`], [`keys`](Table::keys), [`remove_if`](Table::remove_if) and the like) meets the live keys in
//! the order of their places, each place once. A key that is live from its begin to its end is met. One that is
//! inserted or removed meanwhile is met or not, and a key that is met was live at that moment.
//!
//! A walk has no place of the table and no lock between its steps, only a position. Each step is a call of its own, by
//! the place of the thread that makes it. So a walk may go from thread to thread, and its loop or closure may call the
//! table: insert, remove, or walk.
//!
//! # Memory
//!
//! A new table takes less than 160 KiB, and it grows by chunks as inserts find no room. Only [`Table::insert`] and
//! [`Table::enter`] can be refused for want of memory. Get, take and remove are not: if a place of the thread's own
//! cannot be had, they use a shared one. The memory of all chunks is freed as the table is dropped. Some 13 KB of it
//! stay until each thread that used it has ended, or has used enough later tables to forget it.
mod builder;
mod ending;
mod key;
mod members;
mod places;
#[cfg(feature = "serde")]
mod serialized;
mod walk;

pub use builder::Builder;
pub use key::Key;

use crate::record::with_words;
use crate::{Error, Record, Value};
use ending::OnEnd;
use members::Members;
use std::fmt;
use std::marker::PhantomData;
use std::sync::Arc;

/// Records of one type under keys that are never used again, for any number of threads: see the
/// [module](crate::table).
///
/// It is [`Send`] and [`Sync`], whatever the record is: a record is copied into the table and out of it as words.
pub struct Table<R> {
    members: Arc<Members>,
    on_end: OnEnd,
    record: PhantomData<fn() -> R>,
}

impl<R: Record> Table<R> {
    /// Makes a table that grows from the least room.
    ///
    /// # Panics
    ///
    /// If memory for the heap is refused. [`builder`](Table::builder) returns an error instead.
    ///
    /// ```
    /// # use gearlongan::{Error, Table};
    /// let table = Table::new();
    /// let key = table.insert(&(7u32, 'a'))?;
    /// assert_eq!(table.get(key), Some((7, 'a')));
    /// # Ok::<(), Error>(())
    /// ```
    pub fn new() -> Table<R> {
        match Table::builder().open() {
            Ok(table) => table,
            Err(error) => panic!("no table was opened: {error}"),
        }
    }

    /// Begins to say what the table is to have room for.
    ///
    /// ```
    /// # use gearlongan::{Error, Table};
    /// // Each of 8 threads inserts 1,000 records before the table grows.
    /// let table: Table<[u64; 2]> = Table::builder().threads(8).room(1000).open()?;
    /// # Ok::<(), Error>(())
    /// ```
    pub fn builder() -> Builder<R> {
        Builder::new()
    }

    /// Stores a record, and returns its key.
    ///
    /// # Errors
    ///
    /// [`Error::Full`] if the table may have no more chunks, and neither the thread's place nor a resting or shared one
    /// has room. [`Error::Memory`]. [`Error::NoPlace`] if an allocator calls within another call, and no place is
    /// free.
    ///
    /// ```
    /// # use gearlongan::{Error, Table};
    /// let table = Table::builder().chunks(1).open()?;
    /// let keys = std::iter::from_fn(|| table.insert(&7u64).ok()).count();
    /// assert_eq!((table.insert(&7), table.len()), (Err(Error::Full), keys));
    /// # Ok::<(), Error>(())
    /// ```
    #[inline(always)]
    pub fn insert(&self, record: &R) -> Result<Key<R>, Error> {
        let key = with_words(record, |words| self.members.insert(words))?;
        // No key of the library is 0.
        Key::from_bits(key.into()).ok_or(Error::Unknown(0))
    }

    /// A copy of the record of a key. None if it was removed, or the key was never issued. It writes nothing to memory
    /// that threads share, if the thread has a place of its own and the table no [hook](Table::on_end).
    ///
    /// ```
    /// # use gearlongan::{Error, Table};
    /// let table = Table::new();
    /// let key = table.insert(&7.5)?;
    /// assert_eq!(table.get(key), Some(7.5));
    /// assert!(table.remove(key));
    /// assert_eq!(table.get(key), None);
    /// # Ok::<(), Error>(())
    /// ```
    #[inline]
    pub fn get(&self, key: Key<R>) -> Option<R> {
        let mut value = Value::default();
        self.load(key, &mut value).then_some(())?;
        value.record().ok()
    }

    /// Whether a key has a record. It writes nothing to memory that threads share, as [`get`](Table::get).
    ///
    /// ```
    /// # use gearlongan::{Error, Table};
    /// let table = Table::new();
    /// let key = table.insert(&true)?;
    /// assert!(table.contains(key) && table.remove(key) && !table.contains(key));
    /// # Ok::<(), Error>(())
    /// ```
    #[inline]
    pub fn contains(&self, key: Key<R>) -> bool {
        self.load(key, &mut Value::default())
    }

    // Whether the key has a record, which is written then.
    #[inline]
    fn load(&self, key: Key<R>, value: &mut Value) -> bool {
        if self.on_end.is_set() {
            return self.on_end.load(&self.members, key.raw(), value);
        }
        self.members.load(key.raw(), value)
    }

    /// Removes a key, and returns whether this call did: of all calls that remove or take a key, one does.
    ///
    /// ```
    /// # use gearlongan::{Error, Table};
    /// let table = Table::new();
    /// let key = table.insert(&7u8)?;
    /// assert!(table.remove(key));
    /// assert!(!table.remove(key));
    /// # Ok::<(), Error>(())
    /// ```
    #[inline]
    pub fn remove(&self, key: Key<R>) -> bool {
        if self.on_end.is_set() {
            return self.on_end.remove(&self.members, key.raw());
        }
        self.members.remove(key.raw())
    }

    /// Removes a key, and returns its record if this call did.
    ///
    /// ```
    /// # use gearlongan::{Error, Table};
    /// let table = Table::new();
    /// let key = table.insert(&[7u16, 8])?;
    /// assert_eq!(table.take(key), Some([7, 8]));
    /// assert_eq!(table.take(key), None);
    /// # Ok::<(), Error>(())
    /// ```
    #[inline]
    pub fn take(&self, key: Key<R>) -> Option<R> {
        let mut value = Value::default();
        let is_taken = if self.on_end.is_set() {
            self.on_end.take(&self.members, key.raw(), &mut value)
        } else {
            self.members.take(key.raw(), &mut value)
        };
        is_taken.then_some(())?;
        value.record().ok()
    }

    /// Takes a place for this thread, if it has none, so that its next calls lock nothing. Any other call does so too,
    /// as far as it can.
    ///
    /// # Errors
    ///
    /// [`Error::Memory`]. [`Error::NoPlace`] if 60 other threads have a place of their own, if the thread ends, or if
    /// an allocator calls within another call.
    ///
    /// ```
    /// # use gearlongan::{Error, Table};
    /// let table = Table::<u64>::new();
    /// table.enter()?;
    /// # Ok::<(), Error>(())
    /// ```
    pub fn enter(&self) -> Result<(), Error> {
        self.members.enter()
    }
}

impl<R: Record> Table<R> {
    /// How many records the open chunks have slots for. The table opens another chunk earlier if some threads fill
    /// their own room.
    ///
    /// ```
    /// # use gearlongan::Table;
    /// // Of each of two threads.
    /// assert_eq!((Table::<u64>::new().capacity(), Table::<[u64; 16]>::new().capacity()), (2 * 384, 2 * 24));
    /// ```
    pub fn capacity(&self) -> usize {
        self.members.places().capacity(R::WORDS as u32)
    }
}

impl<R> Table<R> {
    /// How many bytes of memory the words of the open chunks take: 32.5 for each record of one word that they have room
    /// for. The lists of owners and the places of threads take more.
    ///
    /// ```
    /// # use gearlongan::Table;
    /// // Of each of two threads 8 pages of 195 words, and two words.
    /// assert_eq!(Table::<u64>::new().bytes(), 2 * (8 * 195 + 2) * 8);
    /// ```
    pub fn bytes(&self) -> usize {
        self.members.places().bytes()
    }

    /// Lets the place of this thread rest, for another thread: as the end of the thread does. Its next call takes a
    /// place again.
    ///
    /// ```
    /// # use gearlongan::{Error, Table};
    /// let table = Table::new();
    /// let key = table.insert(&7u64)?;
    /// table.rest();
    /// assert_eq!(table.get(key), Some(7));
    /// # Ok::<(), Error>(())
    /// ```
    pub fn rest(&self) {
        self.members.rest();
    }

    /// How many records the table has. It is exact if no other call runs, and otherwise off by at most as many as run.
    ///
    /// ```
    /// # use gearlongan::{Error, Table};
    /// let table = Table::new();
    /// let key = table.insert(&7u64)?;
    /// assert_eq!(table.len(), 1);
    /// table.remove(key);
    /// assert!(table.is_empty());
    /// # Ok::<(), Error>(())
    /// ```
    pub fn len(&self) -> usize {
        self.members.places().len()
    }

    /// Whether the table has no record, as [`len`](Table::len) counts.
    pub fn is_empty(&self) -> bool {
        self.len() == 0
    }
}

impl<R: Record> Default for Table<R> {
    /// As [`Table::new`], which panics if memory is refused.
    fn default() -> Table<R> {
        Table::new()
    }
}

impl<R> Drop for Table<R> {
    fn drop(&mut self) {
        if self.on_end.is_set() {
            self.on_end.end_all(&self.members);
        }
    }
}

impl<R> fmt::Debug for Table<R> {
    fn fmt(&self, f: &mut fmt::Formatter<'_>) -> fmt::Result {
        f.debug_struct("Table").field("len", &self.len()).finish_non_exhaustive()
    }
}
