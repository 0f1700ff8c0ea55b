//! Guards.
use crate::ended::Ended;
use crate::error::Error;
use crate::ffi::PassHandle;
use crate::key::Key;
use crate::record::Record;
use crate::value::Value;
use crate::words::Kept;
use std::fmt;
use std::mem::ManuallyDrop;
use std::ops::Deref;

/// A hold on a key, which is released when the guard is dropped. Until then the value stays readable and unchanged.
///
/// It derefs to the value's words, which it reads when it is first asked for them, and keeps. A guard that is forgotten
/// (`std::mem::forget`) leaves its hold with the pass for good. Such a pass is lost when it is dropped, so that the
/// heap has one pass less.
///
/// ```
/// use gearlongan::{Error, Heap, Layout, Shape};
///
/// let heap = Heap::open(Layout::Wide, Shape { shards: 1, segments: 1, passes: 1 })?;
/// let shard = heap.take()?.adopt(0)?;
/// let guard = shard.get(shard.insert(&[7, 8])?)?;
/// assert_eq!(guard.len(), 2);
/// assert_eq!(guard[1], 8);
/// # Ok::<(), Error>(())
/// ```
///
/// It ends before its pass does:
///
/// ```compile_fail
/// # use gearlongan::{Error, Heap, Layout, Shape};
/// # let heap = Heap::open(Layout::Wide, Shape { shards: 1, segments: 1, passes: 1 })?;
/// let shard = heap.take()?.adopt(0)?;
/// let guard = shard.get(shard.insert(&[7, 8])?)?;
/// drop(shard);
/// assert_eq!(*guard, [7, 8]);
/// # Ok::<(), Error>(())
/// ```
#[must_use = "a hold is released when its guard is dropped"]
pub struct Guard<'p> {
    pass: &'p PassHandle,
    key: Key,
    // It cannot change while it is held.
    value: Kept,
}

impl<'p> Guard<'p> {
    // The pass has a hold on the key for it.
    #[inline]
    pub(crate) fn of(pass: &'p PassHandle, key: Key) -> Guard<'p> {
        Guard { pass, key, value: Kept::unread() }
    }

    #[inline]
    pub(crate) fn take(pass: &'p PassHandle, key: Key) -> Result<Guard<'p>, Error> {
        pass.get(key)?;
        Ok(Guard::of(pass, key))
    }

    pub(crate) fn take_ended(pass: &'p PassHandle, key: Key, ended: &mut Ended) -> Result<Guard<'p>, Error> {
        pass.get_ended(key, ended)?;
        Ok(Guard::of(pass, key))
    }

    /// Releases the hold, as a drop of the guard, and returns the key if that ended: if it was removed, and this hold
    /// was the last use of it.
    ///
    /// ```
    /// # use gearlongan::{Error, Heap, Layout, Shape};
    /// # let heap = Heap::open(Layout::Wide, Shape { shards: 1, segments: 1, passes: 1 })?;
    /// # let shard = heap.take()?.adopt(0)?;
    /// let key = shard.insert(&[7, 8])?;
    /// let (one, other) = (shard.get(key)?, shard.get(key)?);
    /// shard.remove(key)?;
    /// assert_eq!(one.release(), None);
    /// assert!(other.release().is_some_and(|it| it.key == key && it.value == [7, 8]));
    /// # Ok::<(), Error>(())
    /// ```
    pub fn release(self) -> Option<Ended> {
        let guard = ManuallyDrop::new(self);
        let (released, ended) = Ended::told(|ended| guard.pass.release_ended(guard.key, ended));
        debug_assert_eq!(released, Ok(()), "a guard has a hold");
        ended
    }

    /// The key that is held.
    ///
    /// ```
    /// # use gearlongan::{Error, Heap, Layout, Shape};
    /// # let heap = Heap::open(Layout::Wide, Shape { shards: 1, segments: 1, passes: 1 })?;
    /// # let shard = heap.take()?.adopt(0)?;
    /// let key = shard.insert(&[7, 8])?;
    /// assert_eq!(shard.get(key)?.key(), key);
    /// # Ok::<(), Error>(())
    /// ```
    #[inline]
    pub fn key(&self) -> Key {
        self.key
    }

    /// The value.
    ///
    /// ```
    /// # use gearlongan::{Error, Heap, Layout, Shape};
    /// # let heap = Heap::open(Layout::Wide, Shape { shards: 1, segments: 1, passes: 1 })?;
    /// # let shard = heap.take()?.adopt(0)?;
    /// let guard = shard.get(shard.insert(&[7, 8])?)?;
    /// assert_eq!(*guard.value(), [7, 8]);
    /// # Ok::<(), Error>(())
    /// ```
    #[inline]
    pub fn value(&self) -> &Value {
        // SAFETY: a read looks at no guard.
        unsafe { self.value.get_or_read(|value| self.read_into(value)) }
    }

    /// Reads the value into one of the caller's, and keeps none: what a loop over many guards uses.
    ///
    /// ```
    /// # use gearlongan::{Error, Heap, Layout, Shape, Value};
    /// # let heap = Heap::open(Layout::Wide, Shape { shards: 1, segments: 1, passes: 1 })?;
    /// # let shard = heap.take()?.adopt(0)?;
    /// let mut value = Value::default();
    /// shard.get(shard.insert(&[7, 8])?)?.read_into(&mut value);
    /// assert_eq!(value, [7, 8]);
    /// # Ok::<(), Error>(())
    /// ```
    #[inline]
    pub fn read_into(&self, value: &mut Value) {
        if let Err(error) = self.pass.read(self.key, value) {
            unreachable!("a value that is held is read: {error}");
        }
    }

    /// The value as a record.
    ///
    /// # Errors
    ///
    /// [`Error::WrongKind`].
    ///
    /// ```
    /// # use gearlongan::{Error, Heap, Layout, Shape};
    /// # let heap = Heap::open(Layout::Wide, Shape { shards: 1, segments: 1, passes: 1 })?;
    /// # let shard = heap.take()?.adopt(0)?;
    /// let guard = shard.get(shard.insert_record(&(7, 8))?)?;
    /// assert_eq!(guard.record(), Ok((7, 8)));
    /// assert_eq!(guard.record::<[u64; 3]>(), Err(Error::WrongKind));
    /// # Ok::<(), Error>(())
    /// ```
    #[inline]
    pub fn record<R: Record>(&self) -> Result<R, Error> {
        self.value().record()
    }
}

impl Drop for Guard<'_> {
    #[inline]
    fn drop(&mut self) {
        let released = self.pass.release(self.key);
        debug_assert_eq!(released, Ok(()), "a guard has a hold");
    }
}

impl Deref for Guard<'_> {
    type Target = [u64];

    #[inline]
    fn deref(&self) -> &[u64] {
        self.value()
    }
}

impl AsRef<[u64]> for Guard<'_> {
    fn as_ref(&self) -> &[u64] {
        self
    }
}

impl fmt::Debug for Guard<'_> {
    fn fmt(&self, f: &mut fmt::Formatter<'_>) -> fmt::Result {
        f.debug_struct("Guard").field("key", &self.key).field("value", self.value()).finish()
    }
}
