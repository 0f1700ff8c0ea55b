//! Which key a call ended.
use crate::error::Error;
use crate::guard::Guard;
use crate::key::Key;
use crate::pass::Pass;
use crate::value::Value;
use std::fmt;
use std::panic::{RefUnwindSafe, UnwindSafe};

/// A key that ended, with its value.
///
/// A key ends once it was removed, nobody has a hold on it, and no call is at its place in the heap. From then on no
/// call reads its value, and what that names can be freed, such as a pointer or a file. Exactly one call ends a key,
/// and only that one returns it. It may be the removal or a release. It may also be a call that is refused as
/// [`Gone`](crate::Error::Gone) or [`Crowded`](crate::Error::Crowded), even of another key that had the same place.
///
/// ```
/// # use gearlongan::{Ended, Error, Heap, Layout, Shape, Value};
/// # let heap = Heap::open(Layout::Wide, Shape { shards: 1, segments: 1, passes: 2 })?;
/// let (shard, pass) = (heap.take()?.adopt(0)?, heap.take()?);
/// let key = shard.insert(&[7, 8])?;
/// let guard = pass.get(key)?;
/// assert_eq!(shard.remove_ended(key), (Ok(()), None)); // the guard still has the value
/// assert_eq!(guard.release(), Some(Ended { key, value: Value::new(&[7, 8])? }));
/// # Ok::<(), Error>(())
/// ```
///
/// A key does not end if its last user was stopped for good in the middle of a call, or forgot its guard. Nor do the
/// keys end that are left as the heap goes: a [`walk`](crate::Pass::walk) before that meets them.
#[derive(Clone, Copy, Debug, PartialEq, Eq)]
#[must_use = "one call alone says that a key ended"]
#[repr(C)]
pub struct Ended {
    /// The key, which no call finds any more.
    pub key: Key,
    /// What its value was.
    pub value: Value,
}

impl Ended {
    /// What a call writes that ended no key. (No key of the library is 0.)
    #[inline]
    pub(crate) fn none() -> Ended {
        Ended { key: Key::from(0), value: Value::default() }
    }

    /// Makes a call that writes what it ended.
    #[inline]
    pub(crate) fn told<T>(call: impl FnOnce(&mut Ended) -> T) -> (T, Option<Ended>) {
        let mut ended = Ended::none();
        let answer = call(&mut ended);
        (answer, ended.found())
    }

    #[inline]
    fn found(self) -> Option<Ended> {
        (u64::from(self.key) != 0).then_some(self)
    }
}

/// What is called as a key ends, if anything is.
pub(crate) struct Hook<F: ?Sized>(Option<Box<F>>);

/// What a pass calls, which goes from thread to thread.
pub(crate) type OfPass = dyn Fn(Key, &[u64]) + Send;

/// What a table calls, which all threads share.
pub(crate) type OfTable = dyn Fn(Key, &Value) + Send + Sync;

// A panic of a hook comes after the call that ended the key, and leaves the pass or table as that call did.
impl<F: ?Sized> UnwindSafe for Hook<F> {}

impl<F: ?Sized> RefUnwindSafe for Hook<F> {}

impl<F: ?Sized> Hook<F> {
    pub(crate) fn none() -> Hook<F> {
        Hook(None)
    }

    pub(crate) fn set(&mut self, hook: Box<F>) {
        self.0 = Some(hook);
    }

    #[inline]
    pub(crate) fn is_set(&self) -> bool {
        self.0.is_some()
    }

    #[inline]
    pub(crate) fn get(&self) -> Option<&F> {
        self.0.as_deref()
    }
}

impl<F: ?Sized> fmt::Debug for Hook<F> {
    fn fmt(&self, f: &mut fmt::Formatter<'_>) -> fmt::Result {
        f.write_str(if self.0.is_some() { "Hook" } else { "None" })
    }
}

impl Pass {
    /// The same as [`get`](Pass::get), and which key it ended, which only a refused get does.
    ///
    /// ```
    /// # use gearlongan::{Error, Heap, Layout, Shape};
    /// # let heap = Heap::open(Layout::Wide, Shape { shards: 1, segments: 1, passes: 2 })?;
    /// # let (shard, pass) = (heap.take()?.adopt(0)?, heap.take()?);
    /// let key = shard.insert(&[7, 8])?;
    /// let (guard, ended) = pass.get_ended(key);
    /// assert_eq!((&*guard?, ended), (&[7, 8][..], None));
    /// # Ok::<(), Error>(())
    /// ```
    pub fn get_ended(&self, key: Key) -> (Result<Guard<'_>, Error>, Option<Ended>) {
        Ended::told(|ended| Guard::take_ended(&self.handle, key, ended))
    }

    /// The same as [`remove`](Pass::remove), and which key it ended: its own one, if nobody else uses it. If it is
    /// refused, that may be another key.
    ///
    /// ```
    /// # use gearlongan::{Error, Heap, Layout, Shape};
    /// # let heap = Heap::open(Layout::Wide, Shape { shards: 1, segments: 1, passes: 2 })?;
    /// # let (shard, pass) = (heap.take()?.adopt(0)?, heap.take()?);
    /// let key = shard.insert(&[7, 8])?;
    /// let (removed, ended) = pass.remove_ended(key);
    /// assert!(removed.is_ok() && ended.is_some_and(|it| it.key == key && it.value == [7, 8]));
    /// assert_eq!(pass.remove_ended(key), (Err(Error::Gone), None));
    /// # Ok::<(), Error>(())
    /// ```
    pub fn remove_ended(&self, key: Key) -> (Result<(), Error>, Option<Ended>) {
        Ended::told(|ended| self.handle.remove_ended(key, ended))
    }

    /// The same as [`take`](Pass::take), and which key it ended.
    ///
    /// ```
    /// # use gearlongan::{Error, Heap, Layout, Shape};
    /// # let heap = Heap::open(Layout::Wide, Shape { shards: 1, segments: 1, passes: 2 })?;
    /// # let (shard, pass) = (heap.take()?.adopt(0)?, heap.take()?);
    /// let key = shard.insert(&[7, 8])?;
    /// let guard = pass.get(key)?;
    /// let (value, ended) = pass.take_ended(key);
    /// assert_eq!((value?, ended), (*guard.value(), None)); // the guard still reads it
    /// assert_eq!(guard.release().map(|it| it.key), Some(key));
    /// # Ok::<(), Error>(())
    /// ```
    pub fn take_ended(&self, key: Key) -> (Result<Value, Error>, Option<Ended>) {
        Ended::told(|ended| {
            let mut value = Value::default();
            self.handle.take_ended(key, &mut value, ended)?;
            Ok(value)
        })
    }

    /// Has `hook` called with each key that a call of this pass ends, and the words of its value. The calls that return
    /// an [`Ended`] do not call it. The thread that makes the call calls it, after all else that the call does. No user
    /// of the value is left then, so the hook may free what that names.
    ///
    /// The hook stays with the pass as that becomes a [`Shard`](crate::Shard) and a pass again, until it is dropped. It
    /// replaces the one before. If it panics, the pass is as after the call, whose result is lost. A guard calls it as
    /// it is dropped, so that a panic while the thread unwinds ends the process.
    ///
    /// With a hook a load takes a hold for a moment, so that it writes to memory that all readers of the key share. (A
    /// load of a number that is no key yet goes on as a get, and so may end a key.)
    ///
    /// ```
    /// # use gearlongan::{Error, Heap, Layout, Shape};
    /// use std::sync::mpsc::channel;
    ///
    /// # let heap = Heap::open(Layout::Wide, Shape { shards: 1, segments: 1, passes: 2 })?;
    /// let (sender, ends) = channel();
    /// let (mut pass, mut other) = (heap.take()?, heap.take()?);
    /// for pass in [&mut pass, &mut other] {
    ///     let sender = sender.clone();
    ///     pass.on_end(move |key, words| sender.send((key, words[0])).expect("it is heard"));
    /// }
    /// let shard = pass.adopt(0)?;
    /// let key = shard.insert(&[7])?;
    /// let guard = other.get(key)?;
    /// shard.remove(key)?;
    /// assert!(ends.try_recv().is_err()); // the guard still has the value
    /// drop(guard);
    /// assert_eq!(ends.try_recv(), Ok((key, 7)));
    /// # Ok::<(), Error>(())
    /// ```
    pub fn on_end(&mut self, hook: impl Fn(Key, &[u64]) + Send + 'static) {
        self.handle.set_on_end(Box::new(hook));
    }
}
