//! Passes.
use crate::error::{AdoptError, Error};
use crate::ffi::PassHandle;
use crate::guard::Guard;
use crate::key::Key;
use crate::receipt::Receipt;
use crate::record::Record;
use crate::shard::Shard;
use crate::value::Value;

/// One thread's right to use a heap: [taken](crate::Heap::take) from it, and at home again when it is dropped.
///
/// It is [`Send`] and not [`Sync`]: each thread has its own.
///
/// ```compile_fail
/// fn shared<T: Sync>() {}
/// shared::<gearlongan::Pass>();
/// ```
///
/// No call waits, and only [`adopt`](Pass::adopt) and [`receipt`](Pass::receipt) take memory.
#[derive(Debug)]
#[must_use = "a pass goes home when it is dropped"]
pub struct Pass {
    pub(crate) handle: PassHandle,
}

impl Pass {
    pub(crate) fn of(handle: PassHandle) -> Pass {
        Pass { handle }
    }

    /// Takes a hold on a key: its value stays readable until the guard is dropped, removed or not. A pass has at most
    /// 16 holds, also several on one key.
    ///
    /// # Errors
    ///
    /// [`Error::BadKey`], [`Error::HoldsFull`], [`Error::Gone`], [`Error::Crowded`].
    ///
    /// ```
    /// # use gearlongan::{Error, Heap, Key, Layout, Shape};
    /// # let heap = Heap::open(Layout::Wide, Shape { shards: 1, segments: 1, passes: 2 })?;
    /// let (shard, pass) = (heap.take()?.adopt(0)?, heap.take()?);
    /// let key = shard.insert(&[7, 8])?;
    /// let guard = pass.get(key)?;
    /// shard.remove(key)?;
    /// assert_eq!(*guard, [7, 8]);
    /// assert_eq!(pass.get(key).err(), Some(Error::Gone));
    /// # Ok::<(), Error>(())
    /// ```
    #[inline]
    pub fn get(&self, key: Key) -> Result<Guard<'_>, Error> {
        Guard::take(&self.handle, key)
    }

    /// Reads a value and takes no hold. It writes nothing to shared memory if the key has a value or was removed, and
    /// takes w + 4 atomic loads for a value of w words. (It takes a hold if the pass has a [hook](Pass::on_end).)
    ///
    /// # Errors
    ///
    /// [`Error::BadKey`], [`Error::Gone`]. [`Error::HoldsFull`] and [`Error::Crowded`] come only of a key whose insert
    /// this pass neither made nor heard of by a [`Receipt`]. The load may then go on as a get, a read and a release.
    ///
    /// ```
    /// # use gearlongan::{Error, Heap, Layout, Shape};
    /// # let heap = Heap::open(Layout::Wide, Shape { shards: 1, segments: 1, passes: 2 })?;
    /// # let (shard, pass) = (heap.take()?.adopt(0)?, heap.take()?);
    /// let key = shard.insert(&[7, 8])?;
    /// assert_eq!(pass.load(key)?, [7, 8]);
    /// # Ok::<(), Error>(())
    /// ```
    #[inline]
    pub fn load(&self, key: Key) -> Result<Value, Error> {
        let mut value = Value::default();
        self.handle.load(key, &mut value)?;
        // (A value of one word, as most are, is made of that word: a move copies the room of all 16.)
        Ok(match *value {
            [word] => Value::of(&word),
            _ => value,
        })
    }

    /// The same, into a value of the caller's, which stays as it was if this is refused. A loop that has one value
    /// for all its loads saves to make one each time.
    ///
    /// # Errors
    ///
    /// Those of [`load`](Pass::load).
    ///
    /// ```
    /// # use gearlongan::{Error, Heap, Layout, Shape, Value};
    /// # let heap = Heap::open(Layout::Wide, Shape { shards: 1, segments: 1, passes: 2 })?;
    /// # let (shard, pass) = (heap.take()?.adopt(0)?, heap.take()?);
    /// let keys = [shard.insert(&[7])?, shard.insert(&[8, 9])?];
    /// let (mut value, mut sum) = (Value::default(), 0);
    /// for key in keys {
    ///     pass.load_into(key, &mut value)?;
    ///     sum += value.iter().sum::<u64>();
    /// }
    /// assert_eq!(sum, 24);
    /// shard.remove(keys[0])?;
    /// assert_eq!(pass.load_into(keys[0], &mut value), Err(Error::Gone));
    /// assert_eq!(value, [8, 9]);
    /// # Ok::<(), Error>(())
    /// ```
    #[inline]
    pub fn load_into(&self, key: Key, value: &mut Value) -> Result<(), Error> {
        self.handle.load(key, value)
    }

    /// Loads several keys, in order: `results[i]` becomes what a [`load`](Pass::load) of `keys[i]` returns. A load that
    /// is refused stops nothing. If one of the slices is longer, the rest of it is left alone.
    ///
    /// In a heap of a fixed shape the waits for the memory of eight keys overlap. Whether a batch is faster than its
    /// loads one by one depends on the processor. Beside a few thousand values, which its caches have, a batch is
    /// slower.
    ///
    /// ```
    /// # use gearlongan::{Error, Heap, Layout, Shape, Value};
    /// # let heap = Heap::open(Layout::Wide, Shape { shards: 1, segments: 1, passes: 2 })?;
    /// # let (shard, pass) = (heap.take()?.adopt(0)?, heap.take()?);
    /// let keys = [shard.insert(&[7])?, shard.insert(&[8, 9])?, shard.insert(&[10])?];
    /// shard.remove(keys[1])?;
    /// let mut results = vec![Ok(Value::default()); keys.len()];
    /// pass.load_each(&keys, &mut results);
    /// assert_eq!(results[0]?, [7]);
    /// assert_eq!(results[1], Err(Error::Gone));
    /// assert_eq!(results[2]?, [10]);
    /// # Ok::<(), Error>(())
    /// ```
    pub fn load_each(&self, keys: &[Key], results: &mut [Result<Value, Error>]) {
        self.handle.load_each(keys, results);
    }

    /// A [`load`](Pass::load) of a value that is a record.
    ///
    /// # Errors
    ///
    /// Those of [`load`](Pass::load), and [`Error::WrongKind`].
    ///
    /// ```
    /// # use gearlongan::{Error, Heap, Layout, Shape};
    /// # let heap = Heap::open(Layout::Wide, Shape { shards: 1, segments: 1, passes: 2 })?;
    /// # let (shard, pass) = (heap.take()?.adopt(0)?, heap.take()?);
    /// let key = shard.insert_record(&(7, 1000))?;
    /// let (user, until): (u64, u64) = pass.load_record(key)?;
    /// assert_eq!((user, until), (7, 1000));
    /// # Ok::<(), Error>(())
    /// ```
    #[inline]
    pub fn load_record<R: Record>(&self, key: Key) -> Result<R, Error> {
        let mut value = Value::default();
        self.load_into(key, &mut value)?;
        value.record()
    }

    /// Reads the value of a key that this pass has a guard of.
    ///
    /// # Errors
    ///
    /// [`Error::NotHeld`], and in a [`Growing`](crate::Growing) heap [`Error::BadKey`] of a chunk that is not open.
    ///
    /// ```
    /// # use gearlongan::{Error, Heap, Layout, Shape};
    /// # let heap = Heap::open(Layout::Wide, Shape { shards: 1, segments: 1, passes: 2 })?;
    /// # let (shard, pass) = (heap.take()?.adopt(0)?, heap.take()?);
    /// let key = shard.insert(&[7, 8])?;
    /// assert_eq!(pass.read(key).err(), Some(Error::NotHeld));
    /// let guard = pass.get(key)?;
    /// assert_eq!(pass.read(guard.key())?, [7, 8]);
    /// # Ok::<(), Error>(())
    /// ```
    #[inline]
    pub fn read(&self, key: Key) -> Result<Value, Error> {
        let mut value = Value::default();
        self.handle.read(key, &mut value)?;
        Ok(value)
    }

    /// The same, into a value of the caller's, which stays as it was if this is refused.
    ///
    /// # Errors
    ///
    /// [`Error::NotHeld`], and in a [`Growing`](crate::Growing) heap [`Error::BadKey`] of a chunk that is not open.
    ///
    /// ```
    /// # use gearlongan::{Error, Heap, Layout, Shape, Value};
    /// # let heap = Heap::open(Layout::Wide, Shape { shards: 1, segments: 1, passes: 2 })?;
    /// # let (shard, pass) = (heap.take()?.adopt(0)?, heap.take()?);
    /// let guard = pass.get(shard.insert(&[7, 8])?)?;
    /// let mut value = Value::default();
    /// pass.read_into(guard.key(), &mut value)?;
    /// assert_eq!(value, [7, 8]);
    /// # Ok::<(), Error>(())
    /// ```
    #[inline]
    pub fn read_into(&self, key: Key, value: &mut Value) -> Result<(), Error> {
        self.handle.read(key, value)
    }

    /// Removes a key: no later get finds it, and its value stays until its last hold goes.
    ///
    /// # Errors
    ///
    /// [`Error::BadKey`], [`Error::Gone`].
    ///
    /// ```
    /// # use gearlongan::{Error, Heap, Layout, Shape};
    /// # let heap = Heap::open(Layout::Wide, Shape { shards: 1, segments: 1, passes: 2 })?;
    /// # let (shard, pass) = (heap.take()?.adopt(0)?, heap.take()?);
    /// let key = shard.insert(&[7, 8])?;
    /// pass.remove(key)?;
    /// assert_eq!(shard.remove(key), Err(Error::Gone));
    /// # Ok::<(), Error>(())
    /// ```
    #[inline]
    pub fn remove(&self, key: Key) -> Result<(), Error> {
        self.handle.remove(key)
    }

    /// Takes the value of a key: a get, a read, a removal and a release in one. Of all calls that remove one key,
    /// exactly one succeeds, so that one caller alone has the value.
    ///
    /// # Errors
    ///
    /// [`Error::BadKey`], [`Error::HoldsFull`], [`Error::Gone`], [`Error::Crowded`].
    ///
    /// ```
    /// # use gearlongan::{Error, Heap, Layout, Shape};
    /// # let heap = Heap::open(Layout::Wide, Shape { shards: 1, segments: 1, passes: 2 })?;
    /// # let (shard, pass) = (heap.take()?.adopt(0)?, heap.take()?);
    /// let key = shard.insert(&[7, 8])?;
    /// assert_eq!(pass.take(key)?, [7, 8]);
    /// assert_eq!(shard.take(key), Err(Error::Gone));
    /// # Ok::<(), Error>(())
    /// ```
    #[inline]
    pub fn take(&self, key: Key) -> Result<Value, Error> {
        let mut value = Value::default();
        self.handle.take(key, &mut value)?;
        Ok(value)
    }

    /// The same, into a value of the caller's, which stays as it was if this is refused.
    ///
    /// # Errors
    ///
    /// Those of [`take`](Pass::take).
    ///
    /// ```
    /// # use gearlongan::{Error, Heap, Layout, Shape, Value};
    /// # let heap = Heap::open(Layout::Wide, Shape { shards: 1, segments: 1, passes: 2 })?;
    /// # let (shard, pass) = (heap.take()?.adopt(0)?, heap.take()?);
    /// let key = shard.insert(&[7, 8])?;
    /// let mut value = Value::default();
    /// pass.take_into(key, &mut value)?;
    /// assert_eq!(value, [7, 8]);
    /// # Ok::<(), Error>(())
    /// ```
    #[inline]
    pub fn take_into(&self, key: Key, value: &mut Value) -> Result<(), Error> {
        self.handle.take(key, value)
    }

    /// Makes a [`Receipt`] of all calls of this pass until now.
    ///
    /// # Errors
    ///
    /// [`Error::Memory`].
    ///
    /// ```
    /// # use gearlongan::{Error, Heap, Layout, Shape};
    /// # let heap = Heap::open(Layout::Wide, Shape { shards: 1, segments: 1, passes: 2 })?;
    /// # let (shard, pass) = (heap.take()?.adopt(0)?, heap.take()?);
    /// let key = shard.insert(&[7, 8])?;
    /// let receipt = shard.receipt()?;
    /// pass.heed(receipt)?;
    /// assert_eq!(pass.load(key)?, [7, 8]);
    /// # Ok::<(), Error>(())
    /// ```
    pub fn receipt(&self) -> Result<Receipt, Error> {
        Ok(Receipt { handle: self.handle.receipt()? })
    }

    /// Heeds a [`Receipt`]: all that it covers happens before the next calls of this pass.
    ///
    /// # Errors
    ///
    /// [`Error::OtherHeap`] if the receipt is of another heap.
    ///
    /// ```
    /// # use gearlongan::{Error, Heap, Layout, Shape};
    /// let shape = Shape { shards: 1, segments: 1, passes: 1 };
    /// let (one, two) = (Heap::open(Layout::Wide, shape)?, Heap::open(Layout::Wide, shape)?);
    /// let (pass, other) = (one.take()?, two.take()?);
    /// assert_eq!(other.heed(pass.receipt()?), Err(Error::OtherHeap));
    /// pass.heed(pass.receipt()?)?;
    /// # Ok::<(), Error>(())
    /// ```
    pub fn heed(&self, receipt: Receipt) -> Result<(), Error> {
        self.handle.heed(receipt.handle)
    }

    /// Makes the pass the owner of a shard, by its number from 0.
    ///
    /// # Errors
    ///
    /// The pass, with [`Error::NoShard`], [`Error::Taken`] or [`Error::Memory`].
    ///
    /// ```
    /// # use gearlongan::{Error, Heap, Layout, Shape};
    /// # let heap = Heap::open(Layout::Wide, Shape { shards: 1, segments: 1, passes: 2 })?;
    /// let shard = heap.take()?.adopt(0)?;
    /// let refused = heap.take()?.adopt(0).expect_err("it has an owner");
    /// assert_eq!(refused.error, Error::Taken);
    /// let pass = refused.pass;
    /// # Ok::<(), Error>(())
    /// ```
    pub fn adopt(self, shard: u32) -> Result<Shard, AdoptError> {
        match self.handle.adopt(shard) {
            Ok(()) => Ok(Shard::of(self)),
            Err(error) => Err(AdoptError { pass: self, error }),
        }
    }
}
