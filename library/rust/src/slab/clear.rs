//! Values that are cleared in place.
use std::collections::{HashMap, HashSet};
use std::hash::{BuildHasher, Hash};
use std::sync::{Mutex, PoisonError, RwLock};

/// A type whose values can be cleared in place and keep the memory that they allocated.
///
/// A [`Pool`](super::Pool) clears a value when its key was removed and its last guard is dropped, and uses it for a
/// later key. A type with nothing to clear may have an empty [`clear`](Clear::clear).
///
/// ```
/// use gearlongan::slab::Clear;
///
/// #[derive(Default)]
/// struct Message {
///     text: String,
///     sender: Option<u64>,
/// }
///
/// impl Clear for Message {
///     fn clear(&mut self) {
///         self.text.clear();
///         self.sender.clear();
///     }
/// }
///
/// let mut message = Message { text: String::from("hello"), sender: Some(7) };
/// message.clear();
/// assert!(message.text.is_empty() && message.text.capacity() >= 5);
/// assert_eq!(message.sender, None);
/// ```
pub trait Clear {
    /// Clears the value, and keeps the memory that it allocated. If it panics in a pool, the value is dropped.
    fn clear(&mut self);
}

impl<T> Clear for Option<T> {
    fn clear(&mut self) {
        *self = None;
    }
}

impl<T: Clear> Clear for Box<T> {
    fn clear(&mut self) {
        (**self).clear();
    }
}

impl<T> Clear for Vec<T> {
    fn clear(&mut self) {
        Vec::clear(self);
    }
}

impl Clear for String {
    fn clear(&mut self) {
        String::clear(self);
    }
}

impl<K: Hash + Eq, V, S: BuildHasher> Clear for HashMap<K, V, S> {
    fn clear(&mut self) {
        HashMap::clear(self);
    }
}

impl<T: Hash + Eq, S: BuildHasher> Clear for HashSet<T, S> {
    fn clear(&mut self) {
        HashSet::clear(self);
    }
}

/// A lock that is poisoned is cleared too, and stays poisoned.
impl<T: Clear> Clear for Mutex<T> {
    fn clear(&mut self) {
        self.get_mut().unwrap_or_else(PoisonError::into_inner).clear();
    }
}

/// A lock that is poisoned is cleared too, and stays poisoned.
impl<T: Clear> Clear for RwLock<T> {
    fn clear(&mut self) {
        self.get_mut().unwrap_or_else(PoisonError::into_inner).clear();
    }
}
