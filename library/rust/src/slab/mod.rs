//! A slab and a pool for values of any type, with the interface of the crate `sharded-slab`.
//!
//! A [`Slab`] stores values and returns keys. A [`Pool`] clears a value in place when its key is removed, and uses it
//! for a later key. The keys are those of the library's heaps: what is proved of them holds here too. So no key is
//! used again, and none finds what was stored under another. That a value is dropped once, and by its last user, is
//! **not proved**: it follows from this module, in Rust.
//!
//! ```
//! use gearlongan::slab::Slab;
//! use std::sync::Arc;
//! use std::thread;
//!
//! let slab = Arc::new(Slab::new());
//! let key = slab.insert(String::from("hello")).expect("there is room");
//! let theirs = slab.clone();
//! let length = thread::spawn(move || theirs.get(key).map(|value| value.len())).join();
//! assert_eq!(length.expect("the thread ends well"), Some(5));
//! assert_eq!(slab.take(key), Some(String::from("hello")));
//! assert!(!slab.contains(key));
//! ```
//!
//! # Threads
//!
//! Any number of threads may use a slab. To get a value asks nothing of a heap and locks nothing: it counts the caller
//! as a user of the value and compares the key. If a key is removed while others use its value, the last of them drops
//! it.
//!
//! A thread that inserts has a shard of a heap, which it keeps until it ends, or until another thread needs one. A
//! thread that finds none shares one with others, behind a lock, and the slab opens another heap if that lasts.
//!
//! # Memory
//!
//! A new slab takes less than 128 KiB, and it grows without a fixed capacity. Its heaps and nodes stay until it is
//! dropped. Then they are freed, also if threads that used the slab go on. With glibc on Linux the memory also goes
//! back to the system if the nodes had a mebibyte or more: by `malloc_trim`, which returns what else is free too.
mod chunk;
mod clear;
mod config;
mod entry;
mod heaps;
mod member;
mod members;
mod node;
mod number;
mod places;
pub mod pool;
mod store;
mod system;

pub use clear::Clear;
pub use config::{Config, DefaultConfig};
pub use entry::{Entry, OwnedEntry, VacantEntry};
#[doc(inline)]
pub use pool::Pool;

use crate::Error;
use config::{mask, Limits};
use std::fmt;
use std::marker::PhantomData;
use std::ptr::{self, NonNull};
use std::sync::Arc;
use store::{Ending, Store};

/// Values of one type under keys, which threads share.
pub struct Slab<T, C: Config = DefaultConfig> {
    store: Store<T, Drops>,
    config: PhantomData<fn() -> C>,
}

/// A value of a slab is dropped.
enum Drops {}

impl<T> Ending<T> for Drops {
    const KEEPS: bool = false;

    unsafe fn end(value: *mut T) {
        // SAFETY: the caller says that the value is its alone.
        unsafe { ptr::drop_in_place(value) };
    }
}

impl<T> Slab<T> {
    /// Makes a slab with the default configuration.
    ///
    /// # Panics
    ///
    /// If memory for the heap is refused. [`with_room`](Slab::with_room) returns an error instead.
    ///
    /// ```
    /// # use gearlongan::slab::Slab;
    /// let slab = Slab::new();
    /// let key = slab.insert("hello").expect("there is room");
    /// assert_eq!(slab.get(key).expect("it is there"), "hello");
    /// ```
    pub fn new() -> Slab<T> {
        Slab::new_with_config()
    }

    /// Makes a slab with a configuration.
    ///
    /// # Panics
    ///
    /// If memory is refused, or the configuration reserves more than 11 bits.
    ///
    /// ```
    /// use gearlongan::slab::{Config, Slab};
    ///
    /// struct Small;
    ///
    /// impl Config for Small {
    ///     const INITIAL_PAGE_SIZE: usize = 100;
    ///     const MAX_PAGES: usize = 1;
    ///     const MAX_THREADS: usize = 1;
    /// }
    ///
    /// // The first heap has more room than the limit, and the slab opens no other.
    /// let slab = Slab::new_with_config::<Small>();
    /// let keys = std::iter::from_fn(|| slab.insert(7)).count();
    /// assert_eq!(keys, 4 * 384);
    /// ```
    pub fn new_with_config<C: Config>() -> Slab<T, C> {
        match Store::open(Limits::of::<C>()) {
            Ok(store) => Slab { store, config: PhantomData },
            Err(error) => panic!("no slab was opened: {error}"),
        }
    }

    /// Makes a slab with room for this many values of each of three threads before it grows: at most 12,288.
    ///
    /// # Errors
    ///
    /// [`Error::BadShape`] if no first heap has that room, and [`Error::Memory`] if memory for the heap is refused. If
    /// the few kilobytes of the slab itself are refused, the process ends, as for any `Box`.
    ///
    /// ```
    /// # use gearlongan::{slab::Slab, Error};
    /// let slab: Slab<String> = Slab::with_room(10_000)?;
    /// assert_eq!(Slab::<String>::with_room(12_289).err(), Some(Error::BadShape));
    /// # Ok::<(), Error>(())
    /// ```
    pub fn with_room(values: u64) -> Result<Slab<T>, Error> {
        if values > heaps::FIRST_ROOM {
            return Err(Error::BadShape);
        }
        let limits = Limits { first: values, ..Limits::of::<DefaultConfig>() };
        Ok(Slab { store: Store::open(limits)?, config: PhantomData })
    }
}

impl<T, C: Config> Slab<T, C> {
    /// How many low bits of a key the slab uses. The others are left to the user, and calls ignore them.
    pub const USED_BITS: usize = usize::BITS as usize - C::RESERVED_BITS;

    /// Stores a value, and returns its key. None if there is no room, or memory is refused.
    ///
    /// ```
    /// # use gearlongan::slab::Slab;
    /// let slab = Slab::new();
    /// assert_ne!(slab.insert(1), slab.insert(1));
    /// ```
    #[inline]
    pub fn insert(&self, value: T) -> Option<usize> {
        Some(self.store.vacant()?.fill(value) as usize)
    }

    /// Returns a key whose value is not stored yet. None if there is no room, or memory is refused.
    ///
    /// ```
    /// # use gearlongan::slab::Slab;
    /// let slab = Slab::new();
    /// let entry = slab.vacant_entry().expect("there is room");
    /// let key = entry.key();
    /// assert!(!slab.contains(key));
    /// entry.insert((key, "hello"));
    /// assert_eq!(slab.get(key).expect("it is there").0, key);
    /// ```
    pub fn vacant_entry(&self) -> Option<VacantEntry<'_, T, C>> {
        Some(VacantEntry::of(self.store.vacant()?))
    }

    /// Returns a guard of the value of a key. None if the key has no value, or has not yet.
    ///
    /// ```
    /// # use gearlongan::slab::Slab;
    /// let slab = Slab::new();
    /// let key = slab.insert("hello").expect("there is room");
    /// let entry = slab.get(key).expect("it is there");
    /// slab.remove(key);
    /// assert!(slab.get(key).is_none());
    /// assert_eq!(entry, "hello");
    /// ```
    #[inline]
    pub fn get(&self, key: usize) -> Option<Entry<'_, T, C>> {
        let node = self.store.begin(key as u64 & mask::<C>())?;
        Some(Entry::of(self, node, key))
    }

    /// Returns a guard that also keeps the slab. None as in [`get`](Slab::get).
    ///
    /// ```
    /// # use gearlongan::slab::Slab;
    /// # use std::sync::Arc;
    /// let slab = Arc::new(Slab::new());
    /// let key = slab.insert("hello").expect("there is room");
    /// let entry = slab.clone().get_owned(key).expect("it is there");
    /// drop(slab);
    /// assert_eq!(entry, "hello");
    /// ```
    pub fn get_owned(self: Arc<Self>, key: usize) -> Option<OwnedEntry<T, C>> {
        let node = NonNull::from(self.store.begin(key as u64 & mask::<C>())?);
        Some(OwnedEntry::of(self, node, key))
    }

    /// Removes a key, and returns whether this call did: of all calls that remove a key, one returns true. The value is
    /// dropped with its last guard.
    ///
    /// ```
    /// # use gearlongan::slab::Slab;
    /// let slab = Slab::new();
    /// let key = slab.insert("hello").expect("there is room");
    /// assert!(slab.remove(key));
    /// assert!(!slab.remove(key));
    /// ```
    #[inline]
    pub fn remove(&self, key: usize) -> bool {
        self.store.remove(key as u64 & mask::<C>())
    }

    /// Removes a key and returns its value, for which it waits until no guard has it. A thread that has a guard of the
    /// value waits for itself.
    ///
    /// ```
    /// # use gearlongan::slab::Slab;
    /// let slab = Slab::new();
    /// let key = slab.insert(vec![1]).expect("there is room");
    /// assert_eq!(slab.take(key), Some(vec![1]));
    /// assert_eq!(slab.take(key), None);
    /// ```
    #[inline]
    pub fn take(&self, key: usize) -> Option<T> {
        self.store.take(key as u64 & mask::<C>())
    }

    /// Returns whether the key has a value.
    ///
    /// ```
    /// # use gearlongan::slab::Slab;
    /// let slab = Slab::new();
    /// let key = slab.insert("hello").expect("there is room");
    /// assert!(slab.contains(key) && !slab.contains(0));
    /// ```
    pub fn contains(&self, key: usize) -> bool {
        self.get(key).is_some()
    }

    /// Returns a guard of each value, while other threads insert and remove. A value that is there from the begin to
    /// the end is met once. One that is inserted or removed meanwhile is met or not.
    ///
    /// ```
    /// # use gearlongan::slab::Slab;
    /// let slab = Slab::new();
    /// let (seven, eight) = (slab.insert(7), slab.insert(8));
    /// for entry in slab.iter().filter(|entry| *entry == 7) {
    ///     assert!(Some(entry.key()) == seven && slab.remove(entry.key()));
    /// }
    /// assert_eq!(slab.iter().map(|entry| entry.key()).collect::<Vec<_>>(), Vec::from_iter(eight));
    /// ```
    pub fn iter(&self) -> impl Iterator<Item = Entry<'_, T, C>> + '_ {
        self.store.begin_each().map(|(number, node)| Entry::of(self, node, number as usize))
    }

    /// Removes each key for which `keep` returns false, of those that [`iter`](Slab::iter) meets. `keep` may call the
    /// slab.
    ///
    /// ```
    /// # use gearlongan::slab::Slab;
    /// let slab = Slab::new();
    /// let (seven, eight) = (slab.insert(7).expect("there is room"), slab.insert(8).expect("there is room"));
    /// slab.retain(|_, value| *value > 7);
    /// assert!(!slab.contains(seven) && slab.contains(eight));
    /// ```
    pub fn retain(&self, mut keep: impl FnMut(usize, &T) -> bool) {
        for entry in self.iter() {
            if !keep(entry.key(), &entry) {
                self.remove(entry.key());
            }
        }
    }

    /// Returns all values, in no order.
    ///
    /// ```
    /// # use gearlongan::slab::Slab;
    /// let mut slab = Slab::new();
    /// let (one, _other) = (slab.insert(7), slab.insert(8));
    /// assert_eq!(slab.unique_iter().sum::<i32>(), 15);
    /// assert!(one.is_some_and(|key| slab.remove(key)));
    /// assert_eq!(slab.unique_iter().collect::<Vec<_>>(), [&8]);
    /// ```
    pub fn unique_iter(&mut self) -> impl Iterator<Item = &T> + '_ {
        self.store.values()
    }
}

impl<T> Default for Slab<T> {
    fn default() -> Slab<T> {
        Slab::new()
    }
}

impl<T, C: Config> fmt::Debug for Slab<T, C> {
    fn fmt(&self, f: &mut fmt::Formatter<'_>) -> fmt::Result {
        f.debug_struct("Slab").finish_non_exhaustive()
    }
}
