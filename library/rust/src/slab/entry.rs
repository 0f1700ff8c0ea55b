//! The guards of a slab.
use super::config::{mask, Config, DefaultConfig};
use super::node::Node;
use super::store::Vacant;
use super::{Drops, Slab};
use std::fmt;
use std::ops::Deref;
use std::ptr::NonNull;
use std::sync::Arc;

/// A guard of a value in a slab: the value stays until the guard is dropped, also if its key is removed.
///
/// ```
/// # use gearlongan::slab::Slab;
/// let slab = Slab::new();
/// let key = slab.insert("hello").expect("there is room");
/// let entry = slab.get(key).expect("it is there");
/// assert!(slab.remove(key));
/// assert_eq!(entry, "hello");
/// ```
#[must_use = "a guard lets its value go when it is dropped"]
pub struct Entry<'a, T, C: Config = DefaultConfig> {
    key: usize,
    // The guard is one of its users.
    node: &'a Node<T>,
    slab: &'a Slab<T, C>,
}

impl<'a, T, C: Config> Entry<'a, T, C> {
    // The node is of this slab, and has a user for this guard.
    #[inline]
    pub(super) fn of(slab: &'a Slab<T, C>, node: &'a Node<T>, key: usize) -> Self {
        Entry { key, node, slab }
    }

    /// The key.
    pub fn key(&self) -> usize {
        self.key
    }
}

impl<T, C: Config> Deref for Entry<'_, T, C> {
    type Target = T;

    #[inline]
    fn deref(&self) -> &T {
        // SAFETY: the guard is a user, so that the value is there and is only shared.
        unsafe { &*self.node.at() }
    }
}

impl<T, C: Config> Drop for Entry<'_, T, C> {
    #[inline]
    fn drop(&mut self) {
        // SAFETY: the guard is a user of the node of this key, and ends here.
        unsafe { self.slab.store.end(self.node, self.key as u64 & mask::<C>()) };
    }
}

/// A guard that also keeps its slab. It may be sent to another thread, and held while a future waits.
///
/// ```
/// use gearlongan::slab::{OwnedEntry, Slab};
/// use std::sync::Arc;
/// use std::thread;
///
/// let slab = Arc::new(Slab::new());
/// let key = slab.insert(String::from("hello")).expect("there is room");
/// let entry: OwnedEntry<String> = slab.clone().get_owned(key).expect("it is there");
/// drop(slab);
/// let length = thread::spawn(move || entry.len()).join();
/// assert_eq!(length.expect("the thread ends well"), 5);
/// ```
#[must_use = "a guard lets its value go when it is dropped"]
pub struct OwnedEntry<T, C: Config = DefaultConfig> {
    key: usize,
    // Of the slab's nodes. The guard is one of its users.
    node: NonNull<Node<T>>,
    slab: Arc<Slab<T, C>>,
}

// SAFETY: a guard is a shared borrow of its value, and its share of the slab may go where the slab may.
unsafe impl<T: Send + Sync, C: Config> Send for OwnedEntry<T, C> {}

// SAFETY: as above.
unsafe impl<T: Send + Sync, C: Config> Sync for OwnedEntry<T, C> {}

impl<T, C: Config> OwnedEntry<T, C> {
    // The node is of this slab, and has a user for this guard.
    pub(super) fn of(slab: Arc<Slab<T, C>>, node: NonNull<Node<T>>, key: usize) -> Self {
        OwnedEntry { key, node, slab }
    }

    /// The key.
    pub fn key(&self) -> usize {
        self.key
    }

    /// The slab.
    pub fn slab(&self) -> &Arc<Slab<T, C>> {
        &self.slab
    }
}

impl<T, C: Config> Deref for OwnedEntry<T, C> {
    type Target = T;

    #[inline]
    fn deref(&self) -> &T {
        // SAFETY: the memory of a node stays as long as its slab, and the guard is a user.
        unsafe { &*self.node.as_ref().at() }
    }
}

impl<T, C: Config> Drop for OwnedEntry<T, C> {
    fn drop(&mut self) {
        // SAFETY: the guard is a user of the node of this key, and ends here.
        unsafe { self.slab.store.end(self.node.as_ref(), self.key as u64 & mask::<C>()) };
    }
}

/// A key whose value is not stored yet. If the entry is dropped, the key is removed.
///
/// ```
/// # use gearlongan::slab::Slab;
/// let slab = Slab::new();
/// let entry = slab.vacant_entry().expect("there is room");
/// let key = entry.key();
/// entry.insert((key, "hello"));
/// assert_eq!(slab.get(key).expect("it is there").0, key);
/// ```
#[must_use = "a key without a value is removed when its entry is dropped"]
pub struct VacantEntry<'a, T, C: Config = DefaultConfig> {
    vacant: Vacant<'a, T, Drops>,
    config: std::marker::PhantomData<fn() -> C>,
}

impl<'a, T, C: Config> VacantEntry<'a, T, C> {
    pub(super) fn of(vacant: Vacant<'a, T, Drops>) -> Self {
        VacantEntry { vacant, config: std::marker::PhantomData }
    }

    /// The key that the value will have.
    pub fn key(&self) -> usize {
        (self.vacant.number() & mask::<C>()) as usize
    }

    /// Stores the value.
    pub fn insert(self, value: T) {
        self.vacant.fill(value);
    }
}

impl<T, C: Config> fmt::Debug for VacantEntry<'_, T, C> {
    fn fmt(&self, f: &mut fmt::Formatter<'_>) -> fmt::Result {
        f.debug_struct("VacantEntry").field("key", &self.key()).finish_non_exhaustive()
    }
}

// What both kinds of guards show of their value.
macro_rules! shows_its_value {
    ($guard:ty) => {
        impl<T: fmt::Debug, C: Config> fmt::Debug for $guard {
            fn fmt(&self, f: &mut fmt::Formatter<'_>) -> fmt::Result {
                (**self).fmt(f)
            }
        }

        impl<T: PartialEq, C: Config> PartialEq<T> for $guard {
            fn eq(&self, other: &T) -> bool {
                **self == *other
            }
        }
    };
}

shows_its_value!(Entry<'_, T, C>);
shows_its_value!(OwnedEntry<T, C>);
