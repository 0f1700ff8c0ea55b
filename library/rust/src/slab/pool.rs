//! A pool: values that are cleared in place, and used again for later keys.
//!
//! ```
//! use gearlongan::slab::Pool;
//!
//! let pool: Pool<String> = Pool::new();
//! let key = pool.create_with(|text| text.push_str("hello")).expect("there is room");
//! assert_eq!(*pool.get(key).expect("it is there"), "hello");
//! assert!(pool.clear(key));
//! assert!(pool.get(key).is_none());
//! ```
use super::clear::Clear;
use super::config::{mask, Config, DefaultConfig, Limits};
use super::store::{Ending, Store};
use std::fmt;
use std::marker::PhantomData;
use std::mem;
use std::ptr::{self, NonNull};
use std::sync::Arc;

#[path = "refs.rs"]
mod refs;

pub use refs::{OwnedRef, OwnedRefMut, Ref, RefMut};

/// Values of one type under keys, which threads share, and whose memory is used again.
///
/// A value is made by [`Default`] for the first key of its place. When its key was removed and its last guard is
/// dropped, it is [cleared](Clear), and a later key has it. If its `clear` panics it is dropped instead.
///
/// The values of a pool are dropped with the pool.
pub struct Pool<T: Clear + Default, C: Config = DefaultConfig> {
    store: Store<T, Clears>,
    config: PhantomData<fn() -> C>,
}

/// A value of a pool is cleared, or dropped if its `clear` panics: what was left half cleared serves no other key.
enum Clears {}

// A value that may not be clear. If it is dropped, the value is.
struct Unclear<T>(*mut T);

impl<T> Drop for Unclear<T> {
    fn drop(&mut self) {
        // SAFETY: one is made only of a value that is there, and that is the caller's alone.
        unsafe { ptr::drop_in_place(self.0) };
    }
}

impl<T: Clear> Ending<T> for Clears {
    const KEEPS: bool = true;

    unsafe fn end(value: *mut T) {
        let unclear = Unclear(value);
        // SAFETY: the caller says that the value is its alone.
        unsafe { (*value).clear() };
        mem::forget(unclear);
    }
}

impl<T: Clear + Default> Pool<T> {
    /// Makes a pool with the default configuration.
    ///
    /// # Panics
    ///
    /// If memory is refused.
    ///
    /// ```
    /// # use gearlongan::slab::Pool;
    /// let pool: Pool<Vec<u8>> = Pool::new();
    /// let key = pool.create_with(|bytes| bytes.extend(*b"hello")).expect("there is room");
    /// assert_eq!(pool.get(key).expect("it is there").len(), 5);
    /// ```
    pub fn new() -> Pool<T> {
        Pool::new_with_config()
    }

    /// Makes a pool with a configuration.
    ///
    /// # Panics
    ///
    /// If memory is refused, or the configuration reserves more than 11 bits.
    ///
    /// ```
    /// use gearlongan::slab::{Config, Pool};
    ///
    /// struct Packed;
    ///
    /// impl Config for Packed {
    ///     const RESERVED_BITS: usize = 8;
    /// }
    ///
    /// let pool: Pool<String, Packed> = Pool::new_with_config();
    /// let key = pool.create_with(|text| text.push('a')).expect("there is room");
    /// assert!(key < 1 << Pool::<String, Packed>::USED_BITS);
    /// ```
    pub fn new_with_config<C: Config>() -> Pool<T, C> {
        match Store::open(Limits::of::<C>()) {
            Ok(store) => Pool { store, config: PhantomData },
            Err(error) => panic!("no pool was opened: {error}"),
        }
    }
}

impl<T: Clear + Default, C: Config> Pool<T, C> {
    /// How many low bits of a key the pool uses. The others are left to the user, and calls ignore them.
    pub const USED_BITS: usize = usize::BITS as usize - C::RESERVED_BITS;

    /// Returns a guard of a new key's value, which is cleared or new. Its key finds the value once the guard is dropped
    /// or [downgraded](RefMut::downgrade). None if there is no room, or memory is refused.
    ///
    /// ```
    /// # use gearlongan::slab::Pool;
    /// let pool: Pool<String> = Pool::new();
    /// let mut guard = pool.create().expect("there is room");
    /// let key = guard.key();
    /// guard.push_str("hello");
    /// assert!(pool.get(key).is_none());
    /// drop(guard);
    /// assert_eq!(*pool.get(key).expect("it is there"), "hello");
    /// ```
    pub fn create(&self) -> Option<RefMut<'_, T, C>> {
        let (node, number) = self.store.vacant()?.write(T::default);
        Some(RefMut::of(self, node, number as usize))
    }

    /// Returns a guard as [`create`](Pool::create) does, which also keeps the pool.
    ///
    /// ```
    /// # use gearlongan::slab::Pool;
    /// # use std::{sync::Arc, thread};
    /// let pool: Arc<Pool<String>> = Arc::new(Pool::new());
    /// let mut guard = pool.clone().create_owned().expect("there is room");
    /// let key = guard.key();
    /// thread::spawn(move || guard.push_str("hello")).join().expect("the thread ends well");
    /// assert_eq!(*pool.get(key).expect("it is there"), "hello");
    /// ```
    pub fn create_owned(self: Arc<Self>) -> Option<OwnedRefMut<T, C>> {
        let (node, number) = self.store.vacant()?.write(T::default);
        let node = NonNull::from(node);
        Some(OwnedRefMut::of(self, node, number as usize))
    }

    /// Runs `init` on a new key's value, and returns the key. None if there is no room, or memory is refused. If `init`
    /// panics, the value is cleared and the key removed.
    ///
    /// ```
    /// # use gearlongan::slab::Pool;
    /// let pool: Pool<String> = Pool::new();
    /// let key = pool.create_with(|text| text.push_str("hello")).expect("there is room");
    /// assert_eq!(*pool.get(key).expect("it is there"), "hello");
    /// ```
    pub fn create_with(&self, init: impl FnOnce(&mut T)) -> Option<usize> {
        Some(self.store.vacant()?.make(T::default, init) as usize)
    }

    /// Returns a guard of the value of a key. None if the key has no value, or a guard may write it.
    ///
    /// ```
    /// # use gearlongan::slab::Pool;
    /// let pool: Pool<String> = Pool::new();
    /// let key = pool.create_with(|text| text.push_str("hello")).expect("there is room");
    /// let guard = pool.get(key).expect("it is there");
    /// assert!(pool.clear(key) && pool.get(key).is_none());
    /// assert_eq!(*guard, "hello");
    /// ```
    #[inline]
    pub fn get(&self, key: usize) -> Option<Ref<'_, T, C>> {
        let node = self.store.begin(key as u64 & mask::<C>())?;
        Some(Ref::of(self, node, key))
    }

    /// Returns a guard as [`get`](Pool::get) does, which also keeps the pool.
    ///
    /// ```
    /// # use gearlongan::slab::Pool;
    /// # use std::sync::Arc;
    /// let pool: Arc<Pool<String>> = Arc::new(Pool::new());
    /// let key = pool.create_with(|text| text.push_str("hello")).expect("there is room");
    /// let guard = pool.clone().get_owned(key).expect("it is there");
    /// drop(pool);
    /// assert_eq!(*guard, "hello");
    /// ```
    pub fn get_owned(self: Arc<Self>, key: usize) -> Option<OwnedRef<T, C>> {
        let node = NonNull::from(self.store.begin(key as u64 & mask::<C>())?);
        Some(OwnedRef::of(self, node, key))
    }

    /// Returns a guard of each value that a key finds, as [`Slab::iter`](super::Slab::iter) does.
    ///
    /// ```
    /// # use gearlongan::slab::Pool;
    /// let pool: Pool<String> = Pool::new();
    /// let key = pool.create_with(|text| text.push_str("hello")).expect("there is room");
    /// assert!(pool.iter().all(|text| text.key() == key && *text == "hello"));
    /// assert_eq!(pool.iter().count(), 1);
    /// ```
    pub fn iter(&self) -> impl Iterator<Item = Ref<'_, T, C>> + '_ {
        self.store.begin_each().map(|(number, node)| Ref::of(self, node, number as usize))
    }

    /// Removes each key for which `keep` returns false, of those that [`iter`](Pool::iter) meets. `keep` may call the
    /// pool.
    ///
    /// ```
    /// # use gearlongan::slab::Pool;
    /// let pool: Pool<String> = Pool::new();
    /// let key = pool.create_with(|text| text.push_str("hello")).expect("there is room");
    /// pool.retain(|_, text| text.len() < 5);
    /// assert!(pool.get(key).is_none());
    /// ```
    pub fn retain(&self, mut keep: impl FnMut(usize, &T) -> bool) {
        for value in self.iter() {
            if !keep(value.key(), &value) {
                self.clear(value.key());
            }
        }
    }

    /// Removes a key, and returns whether this call did. Its value is cleared when its last guard is dropped.
    ///
    /// ```
    /// # use gearlongan::slab::Pool;
    /// let pool: Pool<String> = Pool::new();
    /// let key = pool.create_with(|text| text.push_str("hello")).expect("there is room");
    /// assert!(pool.clear(key));
    /// assert!(!pool.clear(key));
    /// ```
    #[inline]
    pub fn clear(&self, key: usize) -> bool {
        self.store.remove(key as u64 & mask::<C>())
    }
}

impl<T: Clear + Default> Default for Pool<T> {
    fn default() -> Pool<T> {
        Pool::new()
    }
}

impl<T: Clear + Default, C: Config> fmt::Debug for Pool<T, C> {
    fn fmt(&self, f: &mut fmt::Formatter<'_>) -> fmt::Result {
        f.debug_struct("Pool").finish_non_exhaustive()
    }
}
