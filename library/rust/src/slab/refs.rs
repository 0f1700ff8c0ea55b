//! The guards of a pool.
use super::{Clear, Config, DefaultConfig, Pool};
use crate::slab::config::mask;
use crate::slab::node::Node;
use std::fmt;
use std::mem::ManuallyDrop;
use std::ops::{Deref, DerefMut};
use std::ptr::{self, NonNull};
use std::sync::Arc;

/// A guard of a value in a pool: the value stays as it is until the guard is dropped, also if its key is removed.
///
/// ```
/// # use gearlongan::slab::Pool;
/// let pool: Pool<String> = Pool::new();
/// let key = pool.create_with(|text| text.push_str("hello")).expect("there is room");
/// let guard = pool.get(key).expect("it is there");
/// assert!(pool.clear(key));
/// assert_eq!((guard.key(), guard.as_str()), (key, "hello"));
/// ```
#[must_use = "a guard lets its value go when it is dropped"]
pub struct Ref<'a, T: Clear + Default, C: Config = DefaultConfig> {
    key: usize,
    // The guard is one of its users.
    node: &'a Node<T>,
    pool: &'a Pool<T, C>,
}

/// A guard of a new value, which may write it. The key finds the value once the guard is dropped or downgraded.
///
/// ```
/// # use gearlongan::slab::Pool;
/// let pool: Pool<Vec<u8>> = Pool::new();
/// let mut guard = pool.create().expect("there is room");
/// guard.push(7);
/// let key = guard.key();
/// drop(guard);
/// assert_eq!(*pool.get(key).expect("it is there"), [7]);
/// ```
#[must_use = "a guard lets its value go when it is dropped"]
pub struct RefMut<'a, T: Clear + Default, C: Config = DefaultConfig> {
    key: usize,
    // The guard has its exclusive use.
    node: &'a Node<T>,
    pool: &'a Pool<T, C>,
}

/// A guard as [`Ref`], which also keeps the pool. It may be sent to another thread, and held while a future waits.
///
/// ```
/// # use gearlongan::slab::Pool;
/// # use std::{sync::Arc, thread};
/// let pool: Arc<Pool<String>> = Arc::new(Pool::new());
/// let key = pool.create_with(|text| text.push_str("hello")).expect("there is room");
/// let guard = pool.clone().get_owned(key).expect("it is there");
/// drop(pool);
/// assert_eq!(thread::spawn(move || guard.len()).join().expect("the thread ends well"), 5);
/// ```
#[must_use = "a guard lets its value go when it is dropped"]
pub struct OwnedRef<T: Clear + Default, C: Config = DefaultConfig> {
    key: usize,
    // Of the pool's nodes. The guard is one of its users.
    node: NonNull<Node<T>>,
    pool: Arc<Pool<T, C>>,
}

/// A guard as [`RefMut`], which also keeps the pool. It may be sent to another thread, and held while a future waits.
///
/// ```
/// # use gearlongan::slab::Pool;
/// # use std::sync::Arc;
/// let pool: Arc<Pool<String>> = Arc::new(Pool::new());
/// let mut guard = pool.clone().create_owned().expect("there is room");
/// guard.push_str("hello");
/// let guard = guard.downgrade();
/// assert_eq!(pool.get(guard.key()).expect("it is there"), *guard);
/// ```
#[must_use = "a guard lets its value go when it is dropped"]
pub struct OwnedRefMut<T: Clear + Default, C: Config = DefaultConfig> {
    key: usize,
    // Of the pool's nodes. The guard has its exclusive use.
    node: NonNull<Node<T>>,
    pool: Arc<Pool<T, C>>,
}

// SAFETY: a guard is a shared borrow of its value, and its share of the pool may go where the pool may.
unsafe impl<T: Send + Sync + Clear + Default, C: Config> Send for OwnedRef<T, C> {}

// SAFETY: as above.
unsafe impl<T: Send + Sync + Clear + Default, C: Config> Sync for OwnedRef<T, C> {}

// SAFETY: a guard is an exclusive borrow of its value, and its share of the pool may go where the pool may.
unsafe impl<T: Send + Sync + Clear + Default, C: Config> Send for OwnedRefMut<T, C> {}

// SAFETY: as above. A shared borrow of the guard reads the value only.
unsafe impl<T: Send + Sync + Clear + Default, C: Config> Sync for OwnedRefMut<T, C> {}

impl<'a, T: Clear + Default, C: Config> Ref<'a, T, C> {
    // The node is of this pool, and has a user for this guard.
    #[inline]
    pub(super) fn of(pool: &'a Pool<T, C>, node: &'a Node<T>, key: usize) -> Self {
        Ref { key, node, pool }
    }
}

impl<'a, T: Clear + Default, C: Config> RefMut<'a, T, C> {
    // The node is of this pool, and its exclusive use is this guard's.
    pub(super) fn of(pool: &'a Pool<T, C>, node: &'a Node<T>, key: usize) -> Self {
        RefMut { key, node, pool }
    }

    /// Turns the guard into one that only reads. The key finds the value from now on.
    ///
    /// ```
    /// # use gearlongan::slab::Pool;
    /// let pool: Pool<String> = Pool::new();
    /// let mut guard = pool.create().expect("there is room");
    /// guard.push_str("hello");
    /// let guard = guard.downgrade();
    /// assert_eq!(pool.get(guard.key()).expect("it is there"), *guard);
    /// ```
    pub fn downgrade(self) -> Ref<'a, T, C> {
        let this = ManuallyDrop::new(self);
        // SAFETY: the guard has the exclusive use, and is not dropped: its use is that of the result.
        unsafe { this.node.share() };
        Ref { key: this.key, node: this.node, pool: this.pool }
    }
}

impl<T: Clear + Default, C: Config> OwnedRef<T, C> {
    // The node is of this pool, and has a user for this guard.
    pub(super) fn of(pool: Arc<Pool<T, C>>, node: NonNull<Node<T>>, key: usize) -> Self {
        OwnedRef { key, node, pool }
    }
}

impl<T: Clear + Default, C: Config> OwnedRefMut<T, C> {
    // The node is of this pool, and its exclusive use is this guard's.
    pub(super) fn of(pool: Arc<Pool<T, C>>, node: NonNull<Node<T>>, key: usize) -> Self {
        OwnedRefMut { key, node, pool }
    }

    /// Turns the guard into one that only reads. The key finds the value from now on.
    ///
    /// ```
    /// # use gearlongan::slab::Pool;
    /// # use std::{sync::Arc, thread};
    /// let pool: Arc<Pool<String>> = Arc::new(Pool::new());
    /// let mut guard = pool.clone().create_owned().expect("there is room");
    /// guard.push_str("hello");
    /// let guard = guard.downgrade();
    /// let theirs = guard.key();
    /// let length = thread::spawn(move || pool.get(theirs).map(|text| text.len())).join();
    /// assert_eq!(length.expect("the thread ends well"), Some(guard.len()));
    /// ```
    pub fn downgrade(self) -> OwnedRef<T, C> {
        let this = ManuallyDrop::new(self);
        // SAFETY: the guard has the exclusive use, and is not dropped: its use is that of the result.
        unsafe { this.node.as_ref().share() };
        // SAFETY: the guard is not dropped, so that its share of the pool is moved.
        let pool = unsafe { ptr::read(&this.pool) };
        OwnedRef { key: this.key, node: this.node, pool }
    }
}

impl<T: Clear + Default, C: Config> Drop for Ref<'_, T, C> {
    #[inline]
    fn drop(&mut self) {
        // SAFETY: the guard is a user of the node of this key, and ends here.
        unsafe { self.pool.store.end(self.node, self.key as u64 & mask::<C>()) };
    }
}

impl<T: Clear + Default, C: Config> Drop for RefMut<'_, T, C> {
    fn drop(&mut self) {
        // SAFETY: the guard has the exclusive use of the node of this key, which ends here.
        unsafe { self.pool.store.end_writing(self.node, self.key as u64 & mask::<C>()) };
    }
}

impl<T: Clear + Default, C: Config> Drop for OwnedRef<T, C> {
    fn drop(&mut self) {
        // SAFETY: the memory of a node stays as long as its pool, and the guard is a user, and ends here.
        unsafe { self.pool.store.end(self.node.as_ref(), self.key as u64 & mask::<C>()) };
    }
}

impl<T: Clear + Default, C: Config> Drop for OwnedRefMut<T, C> {
    fn drop(&mut self) {
        // SAFETY: the memory of a node stays as long as its pool, and the guard has the exclusive use, which ends here.
        unsafe { self.pool.store.end_writing(self.node.as_ref(), self.key as u64 & mask::<C>()) };
    }
}

impl<T: Clear + Default, C: Config> DerefMut for RefMut<'_, T, C> {
    fn deref_mut(&mut self) -> &mut T {
        // SAFETY: the guard has the exclusive use, and is borrowed alone.
        unsafe { &mut *self.node.at() }
    }
}

impl<T: Clear + Default, C: Config> DerefMut for OwnedRefMut<T, C> {
    fn deref_mut(&mut self) -> &mut T {
        // SAFETY: the memory of a node stays as long as its pool. The guard has the exclusive use, and is borrowed
        // alone.
        unsafe { &mut *self.node.as_ref().at() }
    }
}

// What all four guards show of their value. `$node` is a reference to the node of the guard.
macro_rules! shows_its_value {
    ($guard:ty, $self:ident => $node:expr) => {
        impl<T: Clear + Default, C: Config> $guard {
            /// The key.
            pub fn key(&self) -> usize {
                self.key
            }
        }

        impl<T: Clear + Default, C: Config> Deref for $guard {
            type Target = T;

            #[inline]
            fn deref(&$self) -> &T {
                // SAFETY: the memory of a node stays as long as its pool, which the guard borrows or keeps. The guard
                // is a user, so that the value is there, and is written only through this guard if at all.
                unsafe { &*$node.at() }
            }
        }

        impl<T: Clear + Default + fmt::Debug, C: Config> fmt::Debug for $guard {
            fn fmt(&self, f: &mut fmt::Formatter<'_>) -> fmt::Result {
                (**self).fmt(f)
            }
        }

        impl<T: Clear + Default + PartialEq, C: Config> PartialEq<T> for $guard {
            fn eq(&self, other: &T) -> bool {
                **self == *other
            }
        }
    };
}

shows_its_value!(Ref<'_, T, C>, self => self.node);
shows_its_value!(RefMut<'_, T, C>, self => self.node);
shows_its_value!(OwnedRef<T, C>, self => self.node.as_ref());
shows_its_value!(OwnedRefMut<T, C>, self => self.node.as_ref());
